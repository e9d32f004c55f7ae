#!/usr/bin/env python3
"""Runs target/bin/lister on images, and holds what it prints against board.py, the reference model, and E13 against the document.
On each accepted board the printed blocks are added up.

Boards are made by the model's own calls: format, writes and length changes, planned and performed, on memory that held rubbish.

    run.py [SEED [COUNT]]    COUNT random boards, each also damaged (default: seed 1, 200 boards)
"""
import os
import random
import subprocess
import sys
import time

ROOT = os.path.dirname(os.path.dirname(os.path.dirname(os.path.abspath(__file__))))
sys.path.insert(0, os.path.join(ROOT, 'tests', 'reference'))
import board as B
import making
from making import E13, PLAN, damaged, e2_board, image_of, performed, seed_and_count, some_bytes, with_lengths, with_word, with_writes
from sums import adds_up

LISTER = os.path.join(ROOT, 'target', 'bin', 'lister')


# ---- Boards


def random_words(rnd, count):
    return [rnd.getrandbits(64) for _ in range(8 * count)]


def formatted(rnd, count):
    return making.formatted(random_words(rnd, count))


def many_shapes(rnd):
    """Every height, null roots of height 0 and 3, holes on each level, sizes above the span, a file shortened to nothing."""
    words = formatted(rnd, 1024)
    written = [(0, 1), (1, 64), (2, 65), (3, 512), (4, 513), (5, 4096), (6, 4097), (7, 20000), (30, 700), (31, 3)]
    words = with_writes(words, [(file, 0, some_bytes(rnd, length)) for file, length in written])
    words = with_lengths(words, [(1, 32768), (3, 513), (4, 66), (5, 30000), (8, 1), (9, 32768), (30, 0)])
    words = with_lengths(words, [(10, 32768), (11, 500), (12, 4000), (13, 32768), (14, 9000)])
    words = with_writes(words, [(10, 20000, [7]), (11, 450, [7]), (12, 700, [7]), (13, 32767, [7])])
    words = performed(words, B.write(words, 14, 8999, [7], PLAN), pairs=1)  # growth of a null root, the power cut after it
    lines = B.listing(image_of(words))
    for want in ['file 0 size 1 height 0 held 1', 'file 1 size 32768 height 0 held 1', 'file 2 size 65 height 1 held 3', 'file 4 size 66 height 2 held 4',
                 'file 6 size 4097 height 3 held 77', 'file 7 size 20000 height 3 held 359', 'file 9 size 32768 height 0 held 0',
                 'file 10 size 32768 height 3 held 4', 'file 14 size 9000 height 3 held 0', 'file 31 size 3 height 0 held 1']:
        assert want + '\n' in lines, want
    assert 'file 30' not in lines
    return words


def changed(rnd):
    """A formatted board after some changes, as far as they are accepted."""
    words = formatted(rnd, rnd.choice([16, 16, 17, 20, 40, 100, 1024]))
    for _ in range(rnd.randrange(14)):
        file = rnd.choice([0, 0, 3, 4, 17, 30, 31])
        size = B.size(words, file)
        if rnd.random() < 0.6:
            offset = rnd.choice([0, size, rnd.randrange(size + 1)])
            new = some_bytes(rnd, rnd.choice([1, 2, 9, 64, 70, 300, 600, 2000]))
            words = performed(words, B.write(words, file, offset, new, PLAN))
        else:
            length = rnd.choice([0, 1, size // 2, size + 1, size + 100, 600, 5000, 32768])
            words = performed(words, B.set_length(words, file, length, PLAN))
    return words


# ---- Inputs


def inputs(rnd, count):
    """Each image with its name."""
    e13, greatest = e2_board(random_words(rnd, 16)), image_of(formatted(rnd, 1024))
    image = image_of(e13)
    yield 'formatted, 16 blocks', image_of(formatted(rnd, 16))
    yield 'formatted, 1,024 blocks', greatest
    yield 'many shapes', image_of(many_shapes(rnd))
    yield 'no bytes', b''
    for length in (1, 7, 8, 64, 960, 1016, 1023):
        yield '%d bytes' % length, image[:length]
    for more in (1, 7, 8, 56, 64):
        yield '%d bytes more than a board' % more, image + bytes(more)
    for length in (65528, 65535, 65537, 65544, 65600, 131072, 200000):
        yield '%d bytes' % length, (greatest * 4)[:length]
    for at in range(120, 128):
        for value in (0, 2**64 - 1, e13[at] + 1):
            yield 'trailer, word %d = %d' % (at, value), image_of(with_word(e13, at, value))
    # an inode pointer, the file's root, its size, the root and size of an empty file, block 0
    for at, values in [(8, [0, 17, 24, 120, 2**63 + 16]), (16, [84, 8, 16, 81, 120, 128]), (17, [0, 32768, 32769, 2**64 - 1]), (22, [2**64 - 1]),
                       (23, [1, 32769]), (0, [5])]:
        for value in values:
            yield 'word %d = %d' % (at, value), image_of(with_word(e13, at, value))
    for number in range(count):
        words = changed(rnd)
        yield 'random board %d' % number, image_of(words)
        yield 'random board %d, damaged' % number, image_of(damaged(rnd, words))


# ---- The program


def compare(name, wanted, status, found):
    found = found.decode('latin-1')
    if found.startswith('blocks') and not adds_up(found):
        sys.exit('lister: %s: the printed blocks do not add up:\n%s' % (name, found))
    if status == 0 and found == wanted:
        return
    print('lister: %s: not as expected, exit status %d' % (name, status))
    wanted, found = wanted.splitlines(True), found.splitlines(True)
    for i in range(max(len(wanted), len(found))):
        pair = [repr(lines[i]) if i < len(lines) else 'no line' for lines in (wanted, found)]
        if pair[0] != pair[1]:
            print('line %d: expected %s, found %s' % (i + 1, pair[0], pair[1]))
            break
    sys.exit(1)


def listed(name, image, wanted):
    done = subprocess.run([LISTER], input=image, stdout=subprocess.PIPE, timeout=20)
    compare(name, wanted, done.returncode, done.stdout)


def listed_in_pieces(name, image, wanted, ends):
    """The same with pauses, so that the program gets less than it asks for."""
    with subprocess.Popen([LISTER], stdin=subprocess.PIPE, stdout=subprocess.PIPE) as run:
        try:
            for start, end in zip([0] + ends, ends + [len(image)]):
                run.stdin.write(image[start:end])
                run.stdin.flush()
                time.sleep(0.02)
        except BrokenPipeError:
            pass  # it ended before it had all; what it printed tells why
        found = run.communicate(timeout=20)[0]
    compare(name, wanted, run.returncode, found)


def main():
    seed, count = seed_and_count(200)
    rnd = random.Random(seed)
    if not os.path.exists(LISTER):
        sys.exit('lister: target/bin/lister is not built (tests/lister/build.sh)')
    image, greatest = image_of(e2_board(random_words(rnd, 16))), image_of(many_shapes(rnd))
    listed("E13's board", image, E13)
    listed_in_pieces("E13's board in pieces", image, E13, [1, 8, 13, 700, 1023])
    listed_in_pieces('a board of 1,024 blocks in pieces', greatest, B.listing(greatest), [1, 4096, 65535])
    number, refusals = 3, {}
    for name, image in inputs(rnd, count):
        wanted = B.listing(image)
        listed(name, image, wanted)
        number += 1
        if wanted.startswith('refused'):
            refusals[wanted.strip()] = refusals.get(wanted.strip(), 0) + 1
    print('lister: ' + ', '.join('%s %d times' % refusal for refusal in sorted(refusals.items())))
    accepted = number - sum(refusals.values())
    assert len(refusals) == 3 and accepted > count, 'too few kinds of image'
    print('lister: %d inputs, all as the reference model has them; on %d accepted boards held, free and 11 make B' % (number, accepted))


main()
