"""Counts the instructions of a line of each kind; called by bench/counts."""
import re
import subprocess
import sys
import tempfile

PROGRAM = sys.argv[1]
FEW, MANY = 20, 120


def instructions(side, number, turns):
    with tempfile.NamedTemporaryFile() as out:
        run = subprocess.run(
            ['valgrind', '--tool=callgrind', f'--callgrind-out-file={out.name}', PROGRAM, 'count', side, str(number), str(turns)],
            capture_output=True, check=True)
    return int(re.search(r'Collected : (\d+)', run.stderr.decode()).group(1))


def per_line(side, number, lines):
    return (instructions(side, number, MANY) - instructions(side, number, FEW)) / (MANY - FEW) / lines


print('| line | Rust | entry | ratio |')
print('|---|---|---|---|')
kinds = subprocess.run([PROGRAM, 'kinds'], capture_output=True, check=True).stdout.decode().splitlines()
for number, kind in enumerate(kinds):
    lines, name = kind.split('\t')
    rust, entry = (per_line(side, number, int(lines)) for side in ('rust', 'entry'))
    print(f'| {name} | {rust:,.0f} | {entry:,.0f} | {rust / entry:.1f} |', flush=True)
