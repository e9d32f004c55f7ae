#!/usr/bin/env python3
"""Writes the inputs that the fuzzer begins with: the images of examples/ and some boards made by board.py, the
reference model, each with several requests (request.h).

    seeds.py FOLDER    FOLDER/small gets the images of at most 4,096 bytes, FOLDER/large the longer ones
"""
import glob
import os
import struct
import sys

ROOT = os.path.dirname(os.path.dirname(os.path.dirname(os.path.abspath(__file__))))
sys.path.insert(0, os.path.join(ROOT, 'tests', 'reference'))
from making import formatted, image_of, with_lengths, with_writes

SMALL = 4096
GIVEN = 128
# file, offset, length of the buffer
REQUESTS = [(0, 0, 64), (1, 3, 600), (3, 60, 32768), (5, 500, 4200), (31, 0, 1), (32, 0, 9), (0, 2**64 - 1, 0)]


def empty(blocks):
    """A formatted board over words that were pointers."""
    return formatted([8 * (i % blocks) for i in range(8 * blocks)])


def shapes(blocks, unit):
    """Every height, holes on each level, sizes above the span, a file shortened to nothing."""
    written = [(0, 2), (1, unit), (2, 65), (3, 300), (4, 8 * unit), (30, 70), (31, 3)]
    words = with_writes(empty(blocks), [(file, 0, [(7 * i + file) % 256 for i in range(length)]) for file, length in written])
    words = with_lengths(words, [(1, 32768), (2, 20), (5, 700), (6, 32768), (7, 5000), (8, 32768), (30, 0)])
    return with_writes(words, [(file, offset, [file]) for file, offset in [(5, 600), (6, 20000), (7, 4999)]])


def images():
    for name in sorted(glob.glob(os.path.join(ROOT, 'examples', '*.img'))):
        with open(name, 'rb') as file:
            yield os.path.basename(name), file.read()
    for name, words in [('formatted-16', empty(16)), ('formatted-1024', empty(1024)),
                        ('shapes-64', shapes(64, 8)), ('shapes-1024', shapes(1024, 64))]:
        yield name, image_of(words)


def request(file, offset, length):
    return struct.pack('<4BH2xQ', GIVEN, GIVEN, GIVEN, file, length, offset)


def main():
    for kind in ('small', 'large'):
        os.makedirs(os.path.join(sys.argv[1], kind), exist_ok=True)
    for name, image in images():
        kind = 'small' if len(image) <= SMALL else 'large'
        for i, asked in enumerate(REQUESTS):
            with open(os.path.join(sys.argv[1], kind, '%s-%d' % (name, i)), 'wb') as file:
                file.write(request(*asked) + image)


main()
