#!/usr/bin/env python3
"""Runs target/bin/lister on hostile images: those of the fuzzer's inputs and changed ones. Each time it has to end with
status 0, nothing on standard error and the text of board.py, the reference model.

    lister.py FOLDER COUNT SEED [valgrind]    COUNT images, half from the inputs in FOLDER/*/*/ while there are more

Under valgrind an invalid read or write, or a decision by unset memory, ends the lister with an error. The lister holds
the image in a longer array that is all set, so valgrind cannot see there where the image ends; replay.c shows it for
the calls.
"""
import concurrent.futures
import glob
import os
import random
import subprocess
import sys

ROOT = os.path.dirname(os.path.dirname(os.path.dirname(os.path.abspath(__file__))))
sys.path.insert(0, os.path.join(ROOT, 'tests', 'reference'))
import board as B
from making import image_of, spoilt, with_word

LISTER = os.path.join(ROOT, 'target', 'bin', 'lister')
VALGRIND = ['valgrind', '-q', '--error-exitcode=99', '--exit-on-first-error=yes']
KEPT = os.path.join('target', 'fuzz', 'failed', 'lister.img')
REQUEST_BYTES = 16  # before the image, in an input of the fuzzer
BATCH = 1000  # given to the threads at a time
SMALL = 4200


class Failed(Exception):
    """An image with what is wrong with what the lister made of it."""

    def __init__(self, image, text):
        super().__init__(text)
        self.image = image


# ---- Images


def fuzzed(folder):
    """The images of the fuzzer's inputs, each once."""
    found = set()
    for name in glob.glob(os.path.join(folder, '*', '*', '*')):
        with open(name, 'rb') as file:
            found.add(file.read()[REQUEST_BYTES:])
    return sorted(found)


def with_words(rnd, image):
    """Some words made others; bytes that fill no word stay."""
    words = B.words_of(image[:len(image) // 8 * 8])
    for _ in range(rnd.randrange(1, 4) if words else 0):
        at = rnd.randrange(len(words))
        words = with_word(words, at, spoilt(rnd, words, at, range(len(words) // 8 + 2)))
    return image_of(words) + image[len(words) * 8:]


def other_length(rnd, image):
    """Shorter or longer by bytes, words or blocks, now and then by much; mostly with a sound trailer at the new end."""
    length = max(0, len(image) + rnd.choice([1, 8, 64, 1024, 70000 - len(image)]) * rnd.choice([-1, 1]))
    image = image[:length] + rnd.randbytes(max(0, length - len(image)))
    if length < 64 or rnd.random() < 0.3:
        return image
    return image[:-64] + image_of([9, 512, length // 64, 1, 0, 0, 0, 0])


def changed(rnd, image):
    way = rnd.randrange(16)
    if way == 0:
        return rnd.randbytes(rnd.choice([0, 1, 8, 64, 1024, 1088, 4096, 65536, 65537, 70000]))
    return other_length(rnd, image) if way < 5 else with_words(rnd, image)


def images(folder, seed):
    """What gives the image of a number: for even ones the fuzzer's in an order by the seed, else a changed one."""
    known = fuzzed(folder)
    random.Random(seed).shuffle(known)
    small = [image for image in known if len(image) <= SMALL]

    def image(number):
        if number % 2 == 0 and number // 2 < len(known):
            return known[number // 2]
        rnd = random.Random('%d %d' % (seed, number))
        return changed(rnd, rnd.choice(small if rnd.randrange(20) else known))  # large ones take the model long
    return image


# ---- The program


def listed(command, image):
    try:
        done = subprocess.run(command, input=image, stdout=subprocess.PIPE, stderr=subprocess.PIPE, timeout=60)
    except subprocess.TimeoutExpired:
        raise Failed(image, 'no end after 60 seconds') from None
    wanted, found = B.listing(image), done.stdout.decode('latin-1')
    if done.returncode != 0 or done.stderr:
        raise Failed(image, 'exit status %d, standard error:\n%s' % (done.returncode, done.stderr.decode('latin-1')))
    if found != wanted:
        raise Failed(image, 'expected %r, found %r' % (wanted, found))


def main():
    folder, count, seed = sys.argv[1], int(sys.argv[2]), int(sys.argv[3])
    valgrind = sys.argv[4:] == ['valgrind']
    command = VALGRIND + [LISTER] if valgrind else [LISTER]
    image = images(folder, seed)
    done = 0
    with concurrent.futures.ThreadPoolExecutor(os.cpu_count()) as pool:
        for start in range(0, count, BATCH):
            numbers = range(start, min(count, start + BATCH))
            done += sum(1 for _ in pool.map(lambda number: listed(command, image(number)), numbers))
    how, seen = (' under valgrind', ', no invalid read or write') if valgrind else ('', '')
    print("lister{}: {:,} images: no crash{}, text as the reference model's".format(how, done, seen))


try:
    main()
except Failed as failed:
    os.makedirs(os.path.dirname(os.path.join(ROOT, KEPT)), exist_ok=True)
    with open(os.path.join(ROOT, KEPT), 'wb') as file:
        file.write(failed.image)
    sys.exit('lister: seed %s, image of %d bytes, kept in %s: %s' % (sys.argv[3], len(failed.image), KEPT, failed))
