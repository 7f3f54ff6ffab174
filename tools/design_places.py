#!/usr/bin/env python3
"""The places of docs/DESIGN-PASS.md, point by point: `tools/design_places.py [-l] [FOLDER]` counts them below FOLDER/crates (here where none is
given), and with -l lists each by file and line. A place is found by its text alone, so that the same is found whoever counts."""
import pathlib
import re
import sys

STRUCT = re.compile(r'^(?:pub |pub\(crate\) )?struct (\w+)[^{;]*\{(.*?)^\}', re.M | re.S)
ENUM = re.compile(r'^(?:pub |pub\(crate\) )?enum (\w+)[^{;]*\{(.*?)^\}', re.M | re.S)
FUNCTION = re.compile(r'^(?:pub |pub\(crate\) )?(?:extern "C" )?fn (\w+)(.*?)^\}', re.M | re.S)
NONE = r'^    (Nothing|Nowhere|Wrong|Bad|Absent|Failed|Refused)\b'
VARIANT = r'^    [A-Z]\w*\b'
BY_HAND = ('same is_same is_letter is_digit is_hex is_blank is_quoted lower wide least less held later following grown low_byte low_word pair quad joined '
           'no_number no_range no_line no_bsigs no_injection no_sig0 no_record no_entry wrong digit say_hex say_byte err_decimal say_number say_count').split()


def sources(top):
    for path in sorted(pathlib.Path(top).glob('crates/*/src/**/*.rt')):
        yield str(path.relative_to(top)), path.read_text()


def line(text, at):
    return text.count('\n', 0, at) + 1


def grep(pattern):
    def find(top):
        return [f'{name}:{line(text, m.start())}: {m.group(0).strip()}' for name, text in sources(top) for m in re.finditer(pattern, text, re.M)]
    return find


def shaped(top):
    """1. Enums of two or three variants of which one says that there is no value, or that it is refused."""
    return [f'{name}:{line(text, m.start())}: enum {m.group(1)}' for name, text in sources(top) for m in ENUM.finditer(text)
            if re.search(NONE, m.group(2), re.M) and len(re.findall(VARIANT, m.group(2), re.M)) <= 3]


def flagged(top):
    """1. Structs that have a flag, the field of a value beside it."""
    return [f'{name}:{line(text, m.start())}: struct {m.group(1)}' for name, text in sources(top) for m in STRUCT.finditer(text) if re.search(r': bool,', m.group(2))]


def twins(top):
    """2. Functions that are one another but for types, numbers and their own names; each but the first of its kind is a place."""
    seen, places = {}, []
    for name, text in sources(top):
        for m in FUNCTION.finditer(text):
            code = '\n'.join(l for l in m.group(0).splitlines() if not re.match(r' *(//|requires|ensures)', l))
            code = re.sub(r'_?(u8|u16|u32|u64|usize)\b', '_T', code)
            code = re.sub(r'\b(0x[0-9a-f_]+|\d[\d_]*)\b|b"[^"]*"|b\'[^\']*\'', 'N', code.replace(m.group(1), 'F'))
            code = re.sub(r'\b[A-Z_]{2,}\b', 'N', code)
            if code.count('\n') < 3:
                continue
            if code in seen:
                places.append(f'{name}:{line(text, m.start())}: {m.group(1)}, as {seen[code]}')
            seen.setdefault(code, f'{name}:{m.group(1)}')
    return places


def carried(top):
    """5. Three parameters or more that stand together in three functions or more: each such function is a place."""
    lists, places = {}, []
    for name, text in sources(top):
        for m in FUNCTION.finditer(text):
            head = re.sub(r'\s+', ' ', m.group(2).split('{')[0].split(' requires')[0].split(' ensures')[0])
            given = [p.strip() for p in re.sub(r'^\(|\).*$', '', re.sub(r'^<[^>]*>', '', head)).split(', ') if ':' in p]
            given = [re.sub(r"'a |; \w+", '', p) for p in given]
            for i in range(len(given) - 2):
                lists.setdefault(tuple(given[i:i + 3]), []).append(f'{name}:{line(text, m.start())}: {m.group(1)}')
    for key, found in lists.items():
        if len(found) >= 3:
            places += [f'{place} ({", ".join(key)})' for place in found]
    return sorted({p.split(' (')[0]: p for p in places}.values())


def facts(top):
    """5. Clauses that ask the same of three functions or more."""
    asked = {}
    for name, text in sources(top):
        for m in re.finditer(r'^ +requires (?:\w+ )?\{ (.*) \}', text, re.M):
            asked.setdefault(m.group(1), []).append(f'{name}:{line(text, m.start())}: {m.group(1)}')
    return [place for found in asked.values() if len(found) >= 3 for place in found]


def counted(top):
    """6. Structs that have an array and a count of what is in it, and functions that are given both."""
    count = r'\b(count|have|n|\w*length)\b: (usize|u64)\b'
    array = r': \[[^\]]+; [^\]]+\]'
    structs = [f'{name}:{line(text, m.start())}: struct {m.group(1)}' for name, text in sources(top) for m in STRUCT.finditer(text)
               if re.search(array, m.group(2)) and re.search(count, m.group(2))]
    functions = [f'{name}:{line(text, m.start())}: fn {m.group(1)}' for name, text in sources(top) for m in FUNCTION.finditer(text)
                 if re.search(array + r',\s+' + count, m.group(2).split('{')[0])]
    return structs + functions


def switches(top):
    """7. Functions that choose by a match which of four functions or more to run."""
    return [f'{name}:{line(text, m.start())}: {m.group(1)}' for name, text in sources(top) for m in FUNCTION.finditer(text)
            if len(set(re.findall(r'^ +[A-Z]\w*::\w+[^=\n]* => ([a-z_:]+)\(', m.group(2), re.M))) >= 4]


POINTS = [
    ('1 enums of the shape of Option or Result', shaped),
    ('1 a flag with a value beside it', flagged),
    ('1 a flag that says whether a lent buffer was filled', grep(r'^(pub |pub\(crate\) )?(extern "C" )?fn \w+\([^)]*&mut \[u8[^)]*\) -> bool')),
    ('1 numbers for refusals and kinds', grep(r'^(pub |pub\(crate\) )?(fn \w+\([^)]*\b(number|fault|version|kind|tag): u(8|64)\b[^)]*\)|fn (\w*fault\w*|find|broken|number_of|word_of|kind|tag)\([^)]*\) -> u(8|64)\b)|^ +(pub )?(number|fault): u8,|^ +Refused\(u8\)')),
    ('2 twins', twins),
    ('3 loops that count by hand', grep(r"^ +('\w+: )?while .*")),
    ('4 equality, order, copying, conversion, printing by hand', grep(r'^(pub |pub\(crate\) )?fn (' + '|'.join(BY_HAND) + r')\b.*')),
    ('5 parameters that travel together', carried),
    ('5 facts that three contracts ask', facts),
    ('6 an array with a count beside it', counted),
    ('7 a choice of the function to run', switches),
]


def main():
    words = [w for w in sys.argv[1:] if w != '-l']
    top = words[0] if words else '.'
    for name, find in POINTS:
        places = find(top)
        print(f'{len(places):4}  {name}')
        if '-l' in sys.argv:
            print(''.join(f'        {p}\n' for p in places), end='')


main()
