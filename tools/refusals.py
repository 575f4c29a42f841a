"""Shows what the program `points` prints where it refuses a list, and that it ends with status 0 all the same.

    python3 tools/refusals.py

Outside the gate, which runs a program on one input alone. The expected lines are from docs/FAULTS.md, by hand.
"""
import os
import subprocess
import sys

CRATE = os.path.join(os.path.dirname(os.path.abspath(__file__)), '..', 'crates', 'points')


def record(degree, polynomial, *numbers):
    """A record of a direction list: 20 bytes."""
    given = list(numbers) + [0] * (8 - len(numbers))
    words = b''.join(number.to_bytes(2, 'little') for number in [polynomial] + given)
    return bytes([degree, 0]) + words


CASES = [
    ('empty input', b'', 'refused 3 1 255 0'),
    ('19 bytes', record(0, 1)[:19], 'refused 3 1 255 0'),
    ('nine records', record(0, 1) * 9, 'refused 2 1 255 0'),
    # Of these the program reads 65,520, which are 3,276 whole records.
    ('70,000 bytes', record(0, 1) * 3500, 'refused 2 1 255 0'),
    ('polynomial 31', record(4, 31, 1, 1, 1, 1), 'refused 5 2 0 0'),
    ('polynomial 31 in the second record', record(0, 1) + record(4, 31, 1, 1, 1, 1), 'refused 5 2 1 20'),
]


def run(given):
    said = subprocess.run(['rt', 'run'], cwd=CRATE, input=given, capture_output=True)
    # rt writes of its own work too; the program's line is the one that begins with this word.
    lines = [line for line in said.stdout.decode().splitlines() if line.startswith('refused')]
    return said.returncode, lines


def main():
    wrong = 0
    for name, given, expected in CASES:
        status, lines = run(given)
        fine = (status, lines) == (0, [expected])
        wrong += not fine
        print(f'{name}: {" / ".join(lines)} (status {status}){"" if fine else f", but expected {expected}"}')
    sys.exit(1 if wrong else 0)


main()
