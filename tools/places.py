#!/usr/bin/env python3
"""Lists the places of src/ that docs/DESIGN-PASS.md counts: functions in which an older form stands, by point and form.

Run at the top of a checkout: tools/places.py [COMMIT] [-v]. With a commit, the sources as they were then. With -v, the functions by name.
"""
import re
import subprocess
import sys

KINDS = 'CONST|VAR|SHIFT|SUM|DIFF|NEG|READ|FRESH|WRITE'

# point, form, what a function shows of it (its signature, clauses and body)
FORMS = [
    (1, 'answers a type of its own that is an Option', r'\) -> (Parsed|Asked)\b'),
    (1, 'answers a refusal by its number, 0 for none', r'\{ result ≡ first \(|\) -> Verdict\b'),
    (1, 'tells a kind by its number', r'\.kind (==|!=|<|>|<=|>=) |match kind\b|== Row::(%s)|Row::(%s) (<=|=>)' % (KINDS, KINDS)),
    (1, 'tells a use by its number', r'Uses::(UNUSED|NAME|WORD|ARRAY)\b|-> u8\b(?=.*(use|sort))'),
    (2, 'is one of several that differ in a size', r'fn (two|four|eight|put_two|put_four|put_eight)\b'),
    (2, 'is one of two that differ in a word', r'fn (put_found|put_stands|put_head|put_refusal)\(out'),
    (3, 'has a while or a loop', r'\b(while|loop)\b'),
    (3, 'counts an index by hand', r'\b\w+ \+= 1;'),
    (4, 'is an equality by hand', r'fn (same_base|is_word|differ|other_header)\b'),
    (4, 'is a copy by hand', r'fn copy\b.*while|fn make\('),
    (4, 'is a conversion or a library function by hand', r'fn (known_by|relation_number|refused|one_if|least)\b'),
    (5, 'asks that a width is at most 64', r'requires[^{]*\{[^}]*\bw ≤ 64'),
    (5, 'takes the width as a bare number', r'\bw: u32\b'),
    (5, 'takes marks as bare words', r'marks: &(mut )?\[u64; 16\]'),
    (5, 'takes slots as bare numbers', r'slots: &mut \[u16; 256\]'),
    (5, 'takes a row of an index and the index beside it', r'\bi: usize,\s*j: Index'),
    (5, 'takes a slice to write into and the place in it', r'out: &mut \[u8\], at: usize|out: &mut \[u8\],\s*at: usize'),
    (6, 'takes ranges in a flat array', r'store: &(mut )?\[u64; \w+\]'),
    (6, 'takes a text and its length', r'text: &\[u8\], size: usize'),
    (7, 'goes by a table of functions', r'\bdyn\b|\[fn\('),
]


def sources(commit):
    if commit:
        names = subprocess.run(['git', 'ls-tree', '-r', '--name-only', commit, 'crates'], capture_output=True, text=True, check=True).stdout.split('\n')
        for name in names:
            if re.match(r'crates/\w+/src/.*\.rt$', name):
                yield name, subprocess.run(['git', 'show', commit + ':' + name], capture_output=True, text=True, check=True).stdout
    else:
        names = subprocess.run(['git', 'ls-files', 'crates'], capture_output=True, text=True, check=True).stdout.split('\n')
        for name in names:
            if re.match(r'crates/\w+/src/.*\.rt$', name):
                yield name, open(name).read()


def functions(text):
    for m in re.finditer(r'^( *)(?:pub )?(?:extern "C" )?fn (\w+).*?^\1\}', text, re.S | re.M):
        # what a comment says is no form
        yield m.group(2), re.sub(r'//[^\n]*', '', m.group(0))


def main():
    args = [a for a in sys.argv[1:] if a != '-v']
    named = '-v' in sys.argv
    found = {form: [] for form in FORMS}
    count = 0
    for path, text in sources(args[0] if args else None):
        place = path[len('crates/'):].replace('/src/', '/').replace('.rt', '')
        for name, body in functions(text):
            count += 1
            for form in FORMS:
                if re.search(form[2], body, re.S if 'while' in form[2] and 'copy' in form[2] else 0):
                    found[form].append(place + '::' + name)
    print(count, 'functions')
    for form in FORMS:
        print('%d  %3d  %s' % (form[0], len(found[form]), form[1]))
        if named:
            for place in found[form]:
                print('         ', place)


if __name__ == '__main__':
    main()
