#!/usr/bin/env python3
"""The bench sheet of docs/GUIDE.md, held against the program's lines and, by target/c/sheet, against the built library. With any one of its
numbers greater or smaller by one it must not hold.
"""
import os
import re
import subprocess

ROOT = os.path.dirname(os.path.dirname(os.path.dirname(os.path.abspath(__file__))))
HEADINGS = '| Size in bytes | Height | Bytes of the file under the root, its span | Under each of its pointers | Blocks of a full tree |\n|---|---|---|---|---|\n'


def printed():
    """The rows under the headings: first size, last size, height, bytes under the root, bytes under each pointer (None for data), blocks."""
    with open(os.path.join(ROOT, 'docs', 'GUIDE.md')) as source:
        table = source.read().split(HEADINGS)[1].split('\n\n')[0]
    row = r'^\| ([\d,]+) to ([\d,]+) \| (\d) \| ([\d,]+) \| ([\d,]+|the block is data) \| ([\d,]+) \|$'
    table = re.findall(row, table, re.M)
    assert len(table) == 4, '%d rows' % len(table)
    return [[int(cell.replace(',', '')) if cell[0].isdigit() else None for cell in row] for row in table]


def programmed():
    """The bands in the code: first size, last size, height."""
    with open(os.path.join(ROOT, 'crates', 'bands', 'src', 'lib.rt')) as source:
        return [list(map(int, line)) for line in re.findall(r'^ +(\d+)\.\.=(\d+) => (\d+),$', source.read(), re.M)]


def held(rows):
    text = '\n'.join(' '.join(str(n or 0) for n in row) for row in rows)
    return subprocess.run([os.path.join(ROOT, 'target', 'c', 'sheet')], input=text, capture_output=True, text=True)


def altered(rows):
    """The sheet with one number greater or smaller by one, and which it is."""
    for i, row in enumerate(rows):
        for j, n in enumerate(row):
            for other in (n - 1, n + 1) if n is not None else ():
                if other >= 0:
                    yield (i, j, other), [[other if (i, j) == (k, m) else n for m, n in enumerate(row)] for k, row in enumerate(rows)]


def main():
    rows = printed()
    assert programmed() == [row[:3] for row in rows], 'the program has other bands: %s' % programmed()
    done = held(rows)
    assert done.returncode == 0, done.stdout
    count = 0
    for place, wrong in altered(rows):
        assert held(wrong).returncode == 1, 'a wrong sheet holds: row %d, column %d is %d' % place
        count += 1
    print('%s; the bands of the program as docs/GUIDE.md prints them; %d wrong sheets do not hold' % (done.stdout.splitlines()[-1], count))


main()
