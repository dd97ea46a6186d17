#!/usr/bin/env python3
"""Spells the definitions and lemmas of this repository in snake case, by the table respell.tsv beside this file, in the crates, in the
edits that must be refused, and in the pages.

usage: respell.py          at the top of the repository, once
       respell.py --table  prints the table anew, from the names that are declared in specs/ and in the lemmas of proofs/

A lemma that would meet a definition gets `_lem`. A name that makes a type is in camel case. Names of Rust's items, strings, inputs and
outputs stay; a name behind a dot changes only where it is a record's field."""
import collections
import glob
import pathlib
import re
import sys

HERE = pathlib.Path(__file__).resolve().parent
KINDS = 'abbrev|unfoldable|record|data|enum|ruleset|pub'
DECLARED = re.compile(rf'^( *)((?:(?:{KINDS}) +)*)([^\s(){{}}:;,."@]+)(?: \{{[^{{}}\n]*\}})* :(?:\s|$)', re.M)
SEVERAL = re.compile(r"^ *pub ((?:[a-z][^\s(){}:;,.\"@]* )+):(?:\s|$)", re.M)
NAME = r'[^\s(){}.;,@"«»`\[\]|]+'
TOKEN = re.compile(rf'(\.?)({NAME})')
MADE = ('/Proof.antt', '/Answers.antt', '/Invariants.antt')


def texts(pattern):
    return sorted(pathlib.Path(p) for p in glob.glob(pattern, recursive=True) if '/out/' not in p)


def snake(name):
    return re.sub(r"(?<=[a-z0-9'])[A-Z]", lambda m: '_' + m[0].lower(), name).replace('-', '_')


def table():
    declared, types, fields = collections.defaultdict(set), set(), set()
    for p in texts('crates/*/specs/**/*.antt') + [p for p in texts('crates/*/proofs/**/*.antt') if not str(p).endswith(MADE)]:
        text = re.sub(r'--.*', '', p.read_text())
        for m in DECLARED.finditer(text):
            declared[m[3]].add('definition' if re.search('abbrev|unfoldable|record', m[2]) else 'other')
            if re.search(r'Type( \d+)?$', text[m.end() - 1:].split('\n')[0]) and 'record' not in m[2]:
                types.add(m[3])
        for m in SEVERAL.finditer(text):
            for n in m[1].split():
                if n not in KINDS.split('|'):
                    declared[n].add('other')
        for block in re.finditer(r'^( *)(?:pub )?record [^\n]* where\n((?:\1 +[^\n]*\n|\n)*)', text, re.M):
            for m in re.finditer(rf'^ *pub ((?:{NAME} )+):', block[2], re.M):
                fields.update(m[1].split())
    meet = collections.defaultdict(list)
    for n in declared:
        if re.match('[a-z]', n):
            meet[snake(n)].append(n)
    rows = {}
    for new, old in sorted(meet.items()):
        first = sorted(old, key=lambda n: ('definition' not in declared[n], not re.search('[A-Z]', n), n))[0]
        for n in old:
            to = new if n == first else new + '_lem'
            if n in types:
                to = ''.join(w.capitalize() for w in new.split('_'))
            if to != n:
                rows[n] = to
    return [(n, to, 'field' if n in fields else 'name') for n, to in sorted(rows.items())]


def turner(rows):
    plain = {n: to for n, to, kind in rows}
    behind = {n: to for n, to, kind in rows if kind == 'field'}

    def turned(text, names=plain):
        return TOKEN.sub(lambda m: m[1] + ((behind if m[1] else names).get(m[2], m[2])), text)
    return plain, turned


def antt(text, path, plain, turned):
    """A use names modules by dots, and its names stand in braces; behind other dots stand fields. What a library has keeps its name."""
    own = {p.name for p in pathlib.Path('crates').iterdir()}
    others = set()
    for m in re.finditer(r'^\s*use ([^\s{]+)\.\{([^}]*)\}', text, re.M):
        steps = m[1].split('.')
        if steps[0] != 'Rattle' or steps[1] not in own:
            others.update(w.split(' as ')[0].strip() for w in m[2].split(','))
    names = {n: to for n, to in plain.items() if n not in others}
    if str(path).endswith(MADE):
        # The file's own goals and steps are named by what makes them: only names that it brings in are ours.
        mine = set()
        for m in re.finditer(r'^\s*use Rattle\.(\w+)\.[^{\n]*\{([^}]*)\}', text, re.M):
            if m[1] not in ('std', 'core'):
                mine.update(w.split(' as ')[0].strip() for w in m[2].split(','))
        names = {n: to for n, to in plain.items() if n in mine}
    return turned(text, names)


def aliases(text):
    """A name under which a file brings another in is spelled the same way."""
    for n in set(re.findall(r" as ([a-z][A-Za-z0-9']*[A-Z-][A-Za-z0-9'-]*)", text)):
        text = re.sub(rf"(?<![\w.'-]){re.escape(n)}(?![\w'-])", snake(n), text)
    return text


def rust(text, plain, turned):
    """Clauses, ghost uses and comments, and no strings; a name without a capital is one of ours only in a clause or a ghost use."""
    camel = {n: to for n, to in plain.items() if re.search('[A-Z]', n)}
    out, ghost = [], False
    for line in text.split('\n'):
        ghost = ghost or line.startswith('ghost use')
        clause = re.match(r'\s*(requires|ensures|ghost|decreases)\b', line)
        names = plain if ghost or clause else camel
        if ghost and ';' in line:
            ghost = False
        parts = re.split(r'(b?"(?:[^"\\]|\\.)*")', line)
        out.append(''.join(p if i % 2 else turned(p, names) for i, p in enumerate(parts)))
    return '\n'.join(out)


def declared_now():
    found = set()
    for p in texts('crates/*/specs/**/*.antt') + texts('crates/*/proofs/**/*.antt'):
        if not str(p).endswith(MADE):
            found.update(m[3] for m in DECLARED.finditer(p.read_text()))
    return found


def old_names(text, plain, now):
    """In a page or an edit stand names that the kit's script has turned everywhere else, too."""
    def new(m):
        n = m[2]
        if not re.search('[A-Z-]', n) or not re.match('[a-z]', n):
            return m[0]
        return m[1] + (plain.get(n) or (snake(n) if snake(n) in now else n))
    return TOKEN.sub(new, text)


def main():
    if sys.argv[1:] == ['--table']:
        for row in table():
            print('\t'.join(row))
        return
    rows = [tuple(line.split('\t')) for line in (HERE / 'respell.tsv').read_text().splitlines()]
    plain, turned = turner(rows)
    for p in texts('crates/*/specs/**/*.antt') + texts('crates/*/proofs/**/*.antt'):
        old = p.read_text()
        new = aliases(antt(old, p, plain, turned))
        if new != old:
            p.write_text(new)
    for p in texts('crates/*/src/**/*.rt'):
        old = p.read_text()
        new = aliases(rust(old, plain, turned))
        if new != old:
            p.write_text(new)
    now = declared_now()
    for p in texts('crates/*/must-fail/*.edit') + texts('tests/edits/*/*.edit'):
        old = p.read_text()
        new = ''.join(part if i % 2 else old_names(part, plain, now) for i, part in enumerate(re.split(r'(b?"(?:[^"\\]|\\.)*")', old)))
        if new != old:
            p.write_text(new)
    for p in texts('docs/*.md') + texts('*.md'):
        if p.name.startswith('PORT'):
            continue
        old = p.read_text()
        new = re.sub(r'`[^`\n]+`', lambda m: old_names(m[0], plain, now) if re.fullmatch(rf'`{NAME}`', m[0]) else m[0], old)
        if new != old:
            p.write_text(new)


main()
