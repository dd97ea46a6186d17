#!/usr/bin/env python3
"""The places that docs/DESIGN-PASS.md counts: tools/places.py POINT [FOLDER] lists those of one point, 1 to 8, in the crates of a folder (this
repository, if none is given), and then how many there are. What a point is stands in that page; here is how a place is told."""
import collections
import pathlib
import re
import sys

TOP = pathlib.Path(sys.argv[2] if len(sys.argv) > 2 else pathlib.Path(__file__).resolve().parents[1])
SOURCES = {p: re.sub(r'//[^\n]*', '', p.read_text()) for p in sorted(TOP.glob('crates/*/src/**/*.rt'))}


def where(path, text, place):
    return f'{path.relative_to(TOP / "crates")}:{text.count(chr(10), 0, place) + 1}'


def functions():
    """Each function: where it stands, its name, its parameters, its answer, its clauses and its body."""
    for path, text in SOURCES.items():
        for m in re.finditer(r'^( *)(?:pub )?(?:const )?(?:extern "C" )?fn (\w+)(?:<[^>]*>)?\((.*?)\)(?: -> ([^\n{]+))?\n?(.*?)^\1\{\n(.*?)^\1\}', text, re.M | re.S):
            if '\nfn ' not in m[5]:
                yield where(path, text, m.start()), m[2], m[3], (m[4] or '').strip(), m[5], m[6]


def own_options():
    """Enums of at most four cases, one with a value and one without or with a refusal; numbers that say a kind or a refusal, beside values;
    functions that answer a refusal's number."""
    for path, text in SOURCES.items():
        for m in re.finditer(r'pub enum (\w+)(?:<[^>]*>)? \{\n(.*?)\n\}', text, re.S):
            cases = re.findall(r'^ +(\w+)(\([^)]*\))?', m[2], re.M)
            values = [v for _, v in cases if v and v != '(Refusal)']
            if len(cases) <= 4 and values and len(values) < len(cases):
                yield where(path, text, m.start()), f'enum {m[1]}'
        for m in re.finditer(r'^ +pub (\w+): (u8|u64|bool),', text, re.M):
            if m[2] == 'bool' or m[1] in ('kind', 'refusal'):
                yield where(path, text, m.start()), f'field {m[1]}: {m[2]}'
    for at, name, _, answer, clauses, _ in functions():
        if answer == 'u64' and 'refusal' in clauses + name:
            yield at, f'fn {name} answers a refusal by its number'


def twins():
    """Functions of one crate that are the same but for names, numbers and texts."""
    seen = collections.defaultdict(list)
    for at, name, parameters, answer, _, body in functions():
        shape = re.sub(r'b?"[^"]*"|\b\w+\b', 'w', f'{parameters}|{answer}|{body}').replace(' ', '')
        if body.count('\n') > 2:
            seen[at.split('/')[0], re.sub(r'\s+', '', shape)].append((at, f'fn {name}'))
    for places in seen.values():
        yield from places[1:]


def loops():
    for path, text in SOURCES.items():
        for m in re.finditer(r'^ *(?:while|loop)\b.*', text, re.M):
            yield where(path, text, m.start()), m[0].strip()


def by_hand():
    """Functions whose name or whole body is what a derive, a conversion or a method of the library does."""
    names = r'\w+_again|same|equal|is_same|least|most|larger|smaller|above|either|put_bytes|copy_bytes|number|refusal_of|place|text_again'
    for at, name, _, _, _, body in functions():
        lines = [l.strip() for l in body.strip().split('\n')]
        if re.fullmatch(names, name) or (len(lines) > 3 and re.fullmatch(r'match \w+ \{', lines[0]) and all(re.fullmatch(r'[\w:]+(\([^)]*\))? => [\w:]+(\([^)]*\))?,', l) for l in lines[1:-1])):
            yield at, f'fn {name}'


def repeated():
    """Clauses that three or more functions require, and parameters that always come together."""
    clauses = collections.defaultdict(list)
    for at, name, parameters, _, said, _ in functions():
        for clause in re.findall(r'requires(?: \w+)? \{ (.*?) \}$', said, re.M):
            clauses[clause].append((at, f'fn {name} requires {clause}'))
        names = re.findall(r'(\w+): ', parameters)
        for a, b in zip(names, names[1:]):
            if (a, b) in (('out', 'at'), ('store', 'at'), ('at', 'most'), ('store', 'to')):
                yield at, f'fn {name} takes {a} and {b}'
    for places in clauses.values():
        if len(places) >= 3:
            yield from places


def buffers():
    """Arrays in structs or lent with a length, and slices with two bounds beside them."""
    for path, text in SOURCES.items():
        for m in re.finditer(r'^ +(?:pub )?(\w+): \[\w+; [^\]]+\],', text, re.M):
            yield where(path, text, m.start()), m[0].strip()
    for at, name, parameters, _, _, _ in functions():
        if '&[u8]' in parameters and re.search(r'\b(a|from|start): usize, (e|to|stop|end): usize', parameters.replace('\n', ' ').replace('  ', '')):
            yield at, f'fn {name} takes a text and two bounds'


def switches():
    """A match of four or more arms that each call a function."""
    for at, name, _, _, _, body in functions():
        arms = re.findall(r'^ +[^\n]*? => ([a-z_]\w*)\(', body, re.M)
        if len(arms) >= 4:
            yield at, f'fn {name}: {len(arms)} calls'


def answers():
    for path in sorted(TOP.glob('crates/*/proofs/**/Answers.antt')):
        text = path.read_text()
        for m in re.finditer(r'^pub ([\w-]+) : goal\.\1\s*$', text, re.M):
            yield where(path, text, m.start()), m[1]


POINTS = [own_options, twins, loops, by_hand, repeated, buffers, switches, answers]
if len(sys.argv) < 2 or sys.argv[1] not in '12345678':
    sys.exit(__doc__)
found = sorted(set(POINTS[int(sys.argv[1]) - 1]()))
for at, what in found:
    print(f'{at}: {what}')
print(f'{len(found)} places of point {sys.argv[1]}')
