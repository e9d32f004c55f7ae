#!/usr/bin/env python3
"""Holds the C interface against board.py, the reference model.

Makes images, sound and damaged, with rubbish wherever the document allows it; has board.py say what calls on them answer and leave;
and has target/c/vectors (vectors.c) make the same calls. run.sh builds that program first.

    vectors.py [SEED [COUNT]]    COUNT images (default: seed 1, 300 images)
"""
import random
import sys

from sending import Calls
import board as B
from making import damaged, image_of, seed_and_count, some_board

NUMBERS = [31, 32, 33, 2**32, 2**63, 2**64 - 1]


def some_image(rnd):
    count, files = rnd.choice([16, 17, 24, 40, 100, 300, 1024]), rnd.sample(range(32), rnd.randrange(33))
    words = some_board(rnd, count, files, holes=rnd.choice([0, 0, 0.2, 0.8]))
    if rnd.random() < 0.5:
        words = damaged(rnd, words, rnd.choice([1, 1, 2]))
    image = image_of(words)
    if rnd.random() < 0.08:
        image = rnd.choice([image[:rnd.randrange(len(image))], image + bytes(rnd.randrange(1, 200)), b''])
    return image


def some_calls(calls, rnd, number, image):
    calls.lend(b'I', [len(image)], image, 'image %d' % number)
    sound = B.image_check(image) == 0
    calls.check(B.image_check(image))
    sizes = B.Survey(B.words_of(image)).size if sound else {}
    full = [file for file in sizes if sizes[file]] or [0]
    for file in [rnd.choice(full), rnd.randrange(32), rnd.choice(NUMBERS)]:
        calls.size(file, B.image_size(image, file))
    for _ in range(8 if sound else 3):
        file = rnd.choice([rnd.choice(full)] * 5 + [rnd.randrange(32), rnd.choice(NUMBERS)])
        size = sizes.get(file, 100)
        offset = rnd.choice([0, 1, rnd.randrange(size + 1), rnd.randrange(size + 1), max(0, size - rnd.randrange(200)),
                             size, size + 1, 32768, 2**32, 2**64 - 1])
        length = rnd.choice([0, 1, 7, 8, 9, 64, 65, rnd.randrange(700), rnd.randrange(5000), size, size + 50])
        calls.read(file, offset, length, rnd.randrange(256), lambda *asked: B.image_read(image, *asked))


def main():
    seed, count = seed_and_count(300)
    rnd, calls = random.Random(seed), Calls()
    for number in range(count):
        some_calls(calls, rnd, number, some_image(rnd))
    sys.exit(0 if calls.same('vectors', '%d images' % count) else 1)


main()
