"""Counts instructions of crates/measure/out/measure; called by bench/instructions."""
import os
import re
import subprocess
import sys
import tempfile

PROGRAM = sys.argv[1]
SHORT, LONG = 488, 1000

# Kind, what the program is asked for, and a text of n bytes.
KINDS = [
    ('UTF-8, ASCII', 'u', lambda n: b'a' * n),
    ('UTF-8, two-byte characters', 'u', lambda n: 'é'.encode() * (n // 2)),
    ('UTF-8, three-byte characters', 'u', lambda n: ('€'.encode() * n)[: n - n % 3]),
    ('a word', 'l', lambda n: b'a' * n),
    ('spaces and colons', 'l', lambda n: b' ' * (n // 2) + b':' * (n // 2)),
    ('a line with an argument', 'l', lambda n: b'w ' + b'a' * (n - 2)),
    ('a line with an argument, 0x0A at its end', 'l', lambda n: b'w ' + b'a' * (n - 3) + b'\n'),
    ('a range of digits', 'r', lambda n: b'0' * n),
    ('a range of offsets', 'r', lambda n: b'+1' * (n // 2)),
    ('a string, plain', 's', lambda n: b'a' * n),
    ('a string, quoted', 's', lambda n: b'"' + b'a' * (n - 2) + b'"'),
    ('a string of escapes', 's', lambda n: b'\\ ' * (n // 2)),
    ('strings of one byte', 's', lambda n: b'a ' * (n // 2)),
    ('file names of one byte', 'f', lambda n: b'# ' * (n // 2)),
    ('options of five bytes', 'o', lambda n: b'++a=b ' * (n // 6)),
]


def instructions(which, text):
    with tempfile.TemporaryDirectory() as folder:
        out = os.path.join(folder, 'out')
        run = subprocess.run(
            ['valgrind', '--tool=callgrind', f'--callgrind-out-file={out}', PROGRAM],
            input=which.encode() + text, capture_output=True, check=True)
        return int(re.search(r'Collected : (\d+)', run.stderr.decode()).group(1)), run.stdout


print('| text | instructions a byte | of 1,000 bytes in all |')
print('|---|---|---|')
for name, which, text in KINDS:
    short, long = text(SHORT), text(LONG)
    counts = []
    for t in (short, long):
        own, _ = instructions('0', t)
        all_, answer = instructions(which, t)
        assert answer not in (b'', b'0\n'), (name, answer)
        counts.append(all_ - own)
    print(f'| {name} | {(counts[1] - counts[0]) / (len(long) - len(short)):.1f} | {counts[1]:,} |')

# Short lines, by what they are made of: lines of one reading, and the word of each.
LINES = [(b'q', b'q'), (b':+5-3close', b'close'), (b'tabm 3', b'tabm'), (b'sp a\\ b', b'sp'), (b'w! "a b"', b'w'), (b'foo', b'foo')]


def between(first, second, text):
    return instructions(second, text)[0] - instructions(first, text)[0]


print()
print('| line | in all | the session\'s bytes checked | UTF-8 | reading | lookup | the rest: handler, record, line remembered |')
print('|---|---|---|---|---|---|---|')
for line, word in LINES:
    whole = between('a', 'b', line)
    parts = [between('a', 'k', line), between('0', 'u', line), between('0', 'l', line), between('0', 'w', word)]
    print(f'| `{line.decode()}` | {whole:,} | ' + ' | '.join(f'{n:,}' for n in parts) + f' | {whole - sum(parts):,} |')
