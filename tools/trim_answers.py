"""Takes each answer of some crates away by itself, and puts back those that the check needs.

    python3 tools/trim_answers.py CRATE..

An answer goes where `rt check --only FUNCTION` proves without it, both plainly and with `--margin`.
It changes the files in place, so run it in a clone. It prints a line for each answer: 'gone' or 'kept'.
"""
import os
import re
import subprocess
import sys


def answers(text):
    """The lines of a proof file, and the name, first and last line of each answer in it, its comment included."""
    lines = text.split('\n')
    starts = [i for i, line in enumerate(lines) if line.startswith('pub ') and ' : goal.' in line]

    def first(i):
        while i > 0 and lines[i - 1].startswith('--'):
            i -= 1
        return i

    ends = [first(i) for i in starts[1:]] + [len(lines)]
    return lines, [(lines[i].split()[1], first(i), end) for i, end in zip(starts, ends)]


def proves(crate, function):
    for extra in ([], ['--margin']):
        run = subprocess.run(['rt', 'check', '--only', function] + extra, cwd=f'crates/{crate}', capture_output=True, text=True)
        said = run.stdout + run.stderr
        counts = re.search(r'only=(\d+) proved=(\d+)', said)
        if not counts or counts.group(1) != counts.group(2) or 'error' in said:
            return False
    return True


def try_without(crate, function, path, name):
    with open(path) as file:
        before = file.read()
    lines, found = answers(before)
    _, first, end = next(answer for answer in found if answer[0] == name)
    if len(found) == 1:
        os.remove(path)
    else:
        with open(path, 'w') as file:
            file.write('\n'.join(lines[:first] + lines[end:]))
    if proves(crate, function):
        return 'gone'
    with open(path, 'w') as file:
        file.write(before)
    return 'kept'


def main():
    for crate in sys.argv[1:]:
        for folder, _, files in os.walk(f'crates/{crate}/proofs'):
            if 'Answers.antt' not in files:
                continue
            path = f'{folder}/Answers.antt'
            function = '::'.join([crate] + os.path.relpath(folder, f'crates/{crate}/proofs').split(os.sep))
            with open(path) as file:
                names = [answer[0] for answer in answers(file.read())[1]]
            for name in names:
                print(try_without(crate, function, path, name), function, name, flush=True)


main()
