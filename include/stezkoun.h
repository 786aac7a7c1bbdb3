/*
 * Stezkoun: checks a table of word and array terms, writes its simplified table, replaces one
 * row of a table together with its kept result, tells from a kept result whether two rows are the
 * same or apart, and lists why a read moved.
 *
 * A table is 6 + 30 n bytes: a header (46 54, width 1..64, 0, row count n 0..1024 in two bytes)
 * and n rows of 30 bytes (52 4F, kind, 0, references a b c in two bytes each, values k h in
 * eight bytes each, the number of the instruction that recorded the row in four bytes), all
 * numbers little endian. A result is a table with the same header, and each of its rows carries
 * the instruction number of its row in the table. Any such number will do: it is carried, and
 * listed by stezkoun_why, and has no other influence.
 *
 * Field a of a VAR row (kind 2) is a name, 0 to 65535, and no reference. With the name 0 the row is
 * a variable of its own. All VAR rows of a table with one other name are one variable and must state
 * the same bounds k and h; in the result the first of them stays, and each later one is SHIFT of the
 * first by 0.
 *
 * A row leads back to the rows that it refers to, a later VAR row to the first of its name, and each
 * to whatever those lead back to.
 *
 * Lending. Every buffer belongs to the caller; nothing is kept, allocated or freed, and nothing
 * outside the given lengths is read or written. Within one call a buffer that may be written, one
 * that is not const, must not overlap another. A pointer must not be null, not even with length 0.
 * Any bytes may be lent: what is not a table is refused. Calls share no state, so calls may run at
 * once where none may write a buffer that another is lent.
 *
 * Limits. To work a READ out, its index is compared with that of store after store, from its array
 * down, until one is the same or not known to be apart, or no store is left. stezkoun_run and
 * stezkoun_edit take a limit, 0 to STEZKOUN_LIMIT: a READ that has passed so many stores stays a READ
 * of the array that it has come to. Each row of a result means what its row in the table means,
 * whatever the limit; a lower one may leave more reads, and bounds what they cost. With
 * STEZKOUN_LIMIT every walk comes to its end, and the functions that take no limit work with it.
 *
 * Answers. On acceptance refusal and row are 0, removed counts the rows that are READ in the
 * table and not READ in the result, touched counts the rows that were worked out, and compared the
 * stores that the READ rows among them were compared with: each that was passed, and each that ended
 * a walk. Of stezkoun_ask, which works out none, all three are 0; of stezkoun_why, which does not
 * count stores, compared is 0. On a refusal all three are 0 and every lent byte is as it was.
 */
#ifndef STEZKOUN_H
#define STEZKOUN_H

#include <stddef.h>
#include <stdint.h>

#ifdef __cplusplus
extern "C" {
#endif

/*
 * Refusals, in the order in which they are looked for: 1 to 8; then 19; then the rows ascending, each
 * 9 to 15 and 18, the first faulty row ending the search; then 16; then 14 for a number that names
 * an array row, 17, 22. Of 9 to 15 and 18 the answer's row is the faulty row, and of 17, and of 14
 * for a number, the row that was named; of all others it is 0.
 */
enum stezkoun_refusal {
    STEZKOUN_ACCEPTED = 0,
    STEZKOUN_TABLE_TOO_SHORT = 1,    /* table shorter than 6 bytes */
    STEZKOUN_HEADER_MARK = 2,        /* header mark or zero byte wrong */
    STEZKOUN_WIDTH = 3,              /* width is 0 or above 64 */
    STEZKOUN_ROW_COUNT = 4,          /* n above 1024 */
    STEZKOUN_TABLE_LENGTH = 5,       /* table length is not 6 + 30 n */
    STEZKOUN_RESULT_TOO_SHORT = 6,   /* result or kept result shorter than the table */
    STEZKOUN_ROW_NUMBER = 7,         /* a row number given by the caller is not below n; of two
                                        numbers either */
    STEZKOUN_REPLACEMENT_LENGTH = 8, /* replacement is not 30 bytes long */
    STEZKOUN_ROW_MARK = 9,           /* row mark or zero byte wrong */
    STEZKOUN_KIND = 10,              /* kind not 1 to 9 */
    STEZKOUN_UNUSED_FIELD = 11,      /* a field that the kind does not use is not zero */
    STEZKOUN_VALUE = 12,             /* a used k or h is 2^width or more */
    STEZKOUN_REFERENCE = 13,         /* a used reference is not below its own row's number */
    STEZKOUN_SORT = 14,              /* a word named where an array belongs, or the reverse; also
                                        an array row named to stezkoun_ask */
    STEZKOUN_BOUNDS = 15,            /* VAR with k above h */
    STEZKOUN_KEPT_RESULT = 16,       /* kept result, as far as the table is long, refused as a
                                        table, or with another header, or with an array where the
                                        table as it stands has a word, or the reverse; an edit's
                                        table has the replacement in place */
    STEZKOUN_NOT_A_READ = 17,        /* a row named to stezkoun_why is not a READ */
    STEZKOUN_OTHER_BOUNDS = 18,      /* VAR with other k or h than the first row of its name */
    STEZKOUN_LIMIT_TOO_HIGH = 19,    /* limit above STEZKOUN_LIMIT */
    STEZKOUN_LIST_TOO_SHORT = 22     /* space for the list shorter than the list */
};

enum stezkoun_relation {
    STEZKOUN_NOT_KNOWN = 0, /* also on a refusal */
    STEZKOUN_SAME = 1,
    STEZKOUN_APART = 2
};

/* The highest limit. */
#define STEZKOUN_LIMIT 1024

struct stezkoun_answer { uint64_t refusal, row, removed, touched, compared; };
struct stezkoun_comparison { struct stezkoun_answer answer; uint64_t relation; };
struct stezkoun_listing { struct stezkoun_answer answer; uint64_t length; };

/*
 * Simplifies the table into the first table_len bytes of result; later bytes stay. Touched is n, and
 * compared at most the limit times the READ rows of the table. Gives refusals 1 to 6, 19, 9 to 15 and
 * 18.
 */
struct stezkoun_answer stezkoun_run(const uint8_t *table, size_t table_len,
                                    uint8_t *result, size_t result_len,
                                    uint64_t limit);

/*
 * Puts the replacement in the place of one row of the table, and works out anew, in the kept
 * result, that row and the rows that lead back to it in the table as it stood or as it stands now,
 * each with the instruction number of its row in the edited table; all else stays, numbers among
 * it. The row that stood there before may be malformed: it has a name if its kind byte is 2. The
 * limit holds for the READ rows worked out anew, and compared counts their stores alone; all other
 * rows stay as they are, whatever limit they were made with. With the table's own kept result, made
 * with the same limit, the outcome is that of a fresh run of the edited table with it. A result does
 * not say with which limit it was made: the caller knows. Refusals 9 to 15 and 18 are judged on the
 * table with the replacement in place. Gives refusals 1 to 8, 19, 9 to 15, 18 and 16.
 */
struct stezkoun_answer stezkoun_edit(uint8_t *table, size_t table_len,
                                     uint8_t *kept, size_t kept_len,
                                     uint64_t row,
                                     const uint8_t *replacement, size_t replacement_len,
                                     uint64_t limit);

/*
 * Says of two word rows of the table, by their rows in its kept result, whether they are the same
 * in every case, apart in every case, or not known to be either. Nothing is run: both buffers are
 * only read, a result may be asked any number of times, and all counts are 0. The table's own kept
 * result is what stezkoun_run left, and stezkoun_edit after it, all with one limit, whichever it was.
 * Any other that is not refused is answered by its rows as they stand, each VAR row a variable of its
 * own; that says nothing of the table. Gives refusals 1 to 7, 9 to 15 and 18, then 16, judged beside
 * the table as it stands, then 14 for a number that names an array row of the table, its row being
 * that number and the first number coming first.
 */
struct stezkoun_comparison stezkoun_ask(const uint8_t *table, size_t table_len,
                                        const uint8_t *kept, size_t kept_len,
                                        uint64_t first, uint64_t second);

/*
 * Simplifies as stezkoun_run does with STEZKOUN_LIMIT, and lists the walk of one READ row of the
 * table: each store that was compared, nearest first, with its instruction number and the reason,
 * then where the read ended. The lines are text without a zero byte at the end (docs/WHY.md), at most
 * 256 bytes for each store compared and 256 more; they take the first length bytes of list, and later
 * bytes stay. Gives refusals 1 to 7, 9 to 15 and 18, then 17 and 22. On 22 length says how much to lend;
 * on all others it is 0.
 */
struct stezkoun_listing stezkoun_why(const uint8_t *table, size_t table_len,
                                     uint8_t *result, size_t result_len,
                                     uint64_t row,
                                     uint8_t *list, size_t list_len);

#ifdef __cplusplus
}
#endif

#endif
