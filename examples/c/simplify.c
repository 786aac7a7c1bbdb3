/*
 * Simplifies table P1, asks the result about pairs of rows and why its last read moved, widens its
 * variable and sees what becomes of the result and the answers, and keeps all reads from being
 * compared with stores.
 *
 *   cc -I include examples/c/simplify.c libstezkoun.a -o simplify && ./simplify
 */
#include "stezkoun.h"
#include <inttypes.h>
#include <stdio.h>

enum { HEADER = 6, ROW = 30, SOURCE = 26, ROWS = 9 };
enum { CONST = 1, VAR, SHIFT, SUM, DIFF, NEG, READ, FRESH, WRITE };

static void put(uint8_t *at, int bytes, uint64_t value) {
    for (int i = 0; i < bytes; i++) at[i] = (uint8_t)(value >> 8 * i);
}

static uint64_t get(const uint8_t *at, int bytes) {
    uint64_t value = 0;
    for (int i = bytes - 1; i >= 0; i--) value = value << 8 | at[i];
    return value;
}

static void put_row(uint8_t *at, uint8_t kind, uint16_t a, uint16_t b, uint16_t c,
                    uint64_t k, uint64_t h, uint32_t instruction) {
    at[0] = 0x52; at[1] = 0x4f; at[2] = kind; at[3] = 0;
    put(at + 4, 2, a); put(at + 6, 2, b); put(at + 8, 2, c);
    put(at + 10, 8, k); put(at + 18, 8, h);
    put(at + SOURCE, 4, instruction);
}

static void put_p1(uint8_t *table) {
    uint8_t *row = table + HEADER;
    table[0] = 0x46; table[1] = 0x54; table[2] = 8; table[3] = 0;
    put(table + 4, 2, ROWS);
    put_row(row + 0 * ROW, VAR, 0, 0, 0, 200, 250, 0);  /* a stack pointer */
    put_row(row + 1 * ROW, FRESH, 0, 0, 0, 0, 0, 0);    /* memory */
    put_row(row + 2 * ROW, SHIFT, 0, 0, 0, 248, 0, 6);  /* the pointer - 8 */
    put_row(row + 3 * ROW, CONST, 0, 0, 0, 7, 0, 6);
    put_row(row + 4 * ROW, WRITE, 1, 2, 3, 0, 0, 6);    /* instruction 6 stores 7 there */
    put_row(row + 5 * ROW, SHIFT, 0, 0, 0, 224, 0, 9);
    put_row(row + 6 * ROW, SHIFT, 5, 0, 0, 24, 0, 9);   /* the pointer - 32 + 24 */
    put_row(row + 7 * ROW, READ, 4, 6, 0, 0, 0, 9);     /* so instruction 9 reads the 7 */
    put_row(row + 8 * ROW, READ, 4, 7, 0, 0, 0, 12);    /* and 12, at 7, passes the store */
}

static void print_rows(const uint8_t *table) {
    for (unsigned i = 0; i < ROWS; i++) {
        const uint8_t *row = table + HEADER + ROW * i;
        printf("%u %u %" PRIu64 " %" PRIu64 " %" PRIu64 " %" PRIu64 " %" PRIu64 " %" PRIu64 "\n",
               i, row[2], get(row + 4, 2), get(row + 6, 2), get(row + 8, 2), get(row + 10, 8),
               get(row + 18, 8), get(row + SOURCE, 4));
    }
}

static int print_answer(const char *call, struct stezkoun_answer answer) {
    if (answer.refusal != STEZKOUN_ACCEPTED) {
        printf("%s: refused %" PRIu64 " row %" PRIu64 "\n", call, answer.refusal, answer.row);
        return 1;
    }
    printf("%s: removed %" PRIu64 " touched %" PRIu64 " compared %" PRIu64 "\n", call,
           answer.removed, answer.touched, answer.compared);
    return 0;
}

/* Asks any number of questions over one result; none runs anything. */
static int print_relations(const uint8_t *table, const uint8_t *result, size_t length) {
    static const uint64_t pairs[][2] = { { 2, 6 }, { 0, 2 }, { 2, 7 } };
    static const char *relations[] = { "not known", "same", "apart" };
    for (size_t i = 0; i < sizeof pairs / sizeof *pairs; i++) {
        uint64_t first = pairs[i][0], second = pairs[i][1];
        struct stezkoun_comparison asked =
            stezkoun_ask(table, length, result, length, first, second);
        if (asked.answer.refusal != STEZKOUN_ACCEPTED) return print_answer("ask", asked.answer);
        printf("rows %" PRIu64 " and %" PRIu64 ": %s\n", first, second, relations[asked.relation]);
    }
    return 0;
}

int main(void) {
    uint8_t table[HEADER + ROW * ROWS], result[sizeof table], wide[ROW], list[512];

    put_p1(table);
    struct stezkoun_answer run =
        stezkoun_run(table, sizeof table, result, sizeof result, STEZKOUN_LIMIT);
    if (print_answer("run", run)) return 1;
    print_rows(result);

    if (print_relations(table, result, sizeof result)) return 1;

    struct stezkoun_listing listed =
        stezkoun_why(table, sizeof table, result, sizeof result, 8, list, sizeof list);
    if (print_answer("why", listed.answer)) return 1;
    fwrite(list, 1, listed.length, stdout);

    /* With the pointer anywhere from 0, as instruction 3 has it, row 2 may be 7, and the last read
       no longer passes the store. The limit is the one of the run. */
    put_row(wide, VAR, 0, 0, 0, 0, 250, 3);
    struct stezkoun_answer edited = stezkoun_edit(table, sizeof table, result, sizeof result, 0,
                                                  wide, sizeof wide, STEZKOUN_LIMIT);
    if (print_answer("edit", edited)) return 1;
    print_rows(result);
    if (print_relations(table, result, sizeof result)) return 1;

    /* With the limit 0 both reads stay where they are. */
    run = stezkoun_run(table, sizeof table, result, sizeof result, 0);
    if (print_answer("run, limit 0", run)) return 1;
    print_rows(result);
    run = stezkoun_run(table, sizeof table, result, sizeof result, STEZKOUN_LIMIT + 1);
    return !print_answer("run, limit 1025", run);
}
