#!/usr/bin/env python3
"""Makes the board images of this folder anew, by the calls of the reference model (tests/reference/board.py).

    make.py            writes every image, and listings.txt, beside this script
    make.py --check    writes nothing; fails unless the files here are the ones that it would write

Accepted: e2 (E2 of document 01), cabinet (a small cabinet's files), full (1,024 blocks, none free). The damaged ones are the cabinet's
board with one change each; the number in the name is the refusal. published is a sound board with the published block (N11), which the lister
refuses by 2, since its last eight words are zeros and no trailer of the house's. listings.txt has the listing of each image, by the model too.
"""
import os
import struct
import sys

HERE = os.path.dirname(os.path.abspath(__file__))
sys.path.insert(0, os.path.join(os.path.dirname(HERE), 'tests', 'reference'))
import board as B
from making import e2_board, formatted, image_of, with_writes

SCORES, METER, INITIALS, NOTES, LOG = 0, 1, 2, 3, 4


# ---- Accepted boards


def with_files(blocks, files, layout=B.HOUSE):
    return with_writes(formatted([0] * (layout.width * blocks), layout), [(file, 0, new) for file, new in files], layout)


def records(line, count):
    """The first count bytes of numbered lines."""
    text = ''.join(line % i for i in range(count))
    return text.encode()[:count]


def scores():
    return b''.join(struct.pack('<8sQ', b'PLAYER%02d' % i, 100000 - 2500 * i) for i in range(30))


def cabinet():
    notes = records('%03d coil and flipper rubber replaced\n', 200)
    return with_files(32, [(SCORES, scores()), (METER, struct.pack('<Q', 41897)), (INITIALS, b'MONBEE'), (NOTES, notes)])


def full():
    sizes = [32768, 20000, 3500, 256, 60]
    return with_files(1024, [(file, records('%05d game over, coins 1\n', size)) for file, size in enumerate(sizes)])


def published():
    """Heights 0 and 1, and a log that begins with a hole: only its last block is there."""
    notes = records('%05d coil and flipper rubber replaced\n', 9000)
    words = with_files(16, [(SCORES, scores()), (METER, struct.pack('<Q', 41897)), (NOTES, notes)], B.PUBLISHED)
    return with_writes(words, [(LOG, 20000, b'game over, coins 1\n')], B.PUBLISHED)


# ---- Damage


def inode(words, file):
    """The address of the file's root word; the size follows it."""
    return B.Survey(words).inode(file)


def trailer(k, value):
    def change(words):
        words[len(words) - 8 + k] = value(words[len(words) - 8 + k], len(words) // 8)
    return change


def inode_pointer(k, value):
    def change(words):
        at = 8 * (words[-8] // 8) + k
        words[at] = value(words[at], len(words) // 8)
    return change


def root(value):
    def change(words):
        at = inode(words, SCORES)
        words[at] = value(words[at], len(words) // 8)
    return change


def size(value):
    def change(words):
        words[inode(words, SCORES) + 1] = value
    return change


def pointer(k, value):
    """Pointer k of the block that the root of the score table points to."""
    def change(words):
        at = 8 * (words[inode(words, SCORES)] // 8) + k
        words[at] = value(words, words[at])
    return change


def block_of(file):
    return lambda words, old: words[inode(words, file)] // 8 * 8


DAMAGED = [
    ('2-inode-root-null', trailer(0, lambda old, blocks: 1)),
    ('2-inode-root-past-the-blocks', trailer(0, lambda old, blocks: 8 * (blocks - 1) + 1)),
    ('2-inode-root-low-bits', trailer(0, lambda old, blocks: old + 1)),
    ('2-bytes-of-inodes', trailer(1, lambda old, blocks: 511)),
    ('2-block-count', trailer(2, lambda old, blocks: blocks + 1)),
    ('2-layout', trailer(3, lambda old, blocks: 7)),
    ('2-spare-word', trailer(6, lambda old, blocks: 1)),
    ('3-inode-pointer-null', inode_pointer(7, lambda old, blocks: 0)),
    ('3-inode-pointer-past-the-blocks', inode_pointer(7, lambda old, blocks: 8 * (blocks - 1))),
    ('3-inode-pointer-low-bits', inode_pointer(7, lambda old, blocks: old + 4)),
    ('3-inode-leaf-twice', inode_pointer(7, lambda old, blocks: old - 8)),
    ('3-size', size(32769)),
    ('3-root-height', root(lambda old, blocks: old - old % 8 + 4)),
    ('3-root-past-the-blocks', root(lambda old, blocks: 8 * (blocks - 1) + old % 8)),
    ('3-pointer-past-the-blocks', pointer(3, lambda words, old: len(words))),
    ('3-pointer-low-bits', pointer(3, lambda words, old: old + 1)),
    ('3-block-twice-in-a-file', pointer(3, lambda words, old: old - 8)),
    ('3-block-of-two-files', pointer(3, block_of(METER))),
    ('3-pointer-to-its-own-block', pointer(3, block_of(SCORES))),
]


# ---- Images


def wrong_sizes():
    image = image_of(cabinet())
    return [
        ('1-byte-count', image[:-1]),
        ('1-half-a-block', image + bytes(32)),
        ('1-too-few-words', image[:960]),
        ('1-too-many-words', image_of(full()) + bytes(64)),
    ]


def images():
    made = {'e2': image_of(e2_board([0] * 128)), 'cabinet': image_of(cabinet()), 'full': image_of(full()), 'published': image_of(published())}
    for name, image in wrong_sizes():
        made['damaged-' + name] = image
    for name, change in DAMAGED:
        words = cabinet()
        change(words)
        made['damaged-' + name] = image_of(words)
    return {name + '.img': image for name, image in made.items()}


def listings(made):
    return '\n'.join(name + '\n' + B.listing(image) for name, image in sorted(made.items())).encode()


def as_named(name, image):
    """A damaged image is refused by the number in its name, the published board as one that is none of the house's; any other is accepted."""
    listed = B.listing(image)
    if name.startswith('published'):
        return listed == 'refused 2\n' and B.check(B.words_of(image), B.PUBLISHED) == 0
    return listed == 'refused %s\n' % name.split('-')[1] if name.startswith('damaged-') else listed.startswith('blocks ')


def check(made):
    here = {name for name in os.listdir(HERE) if not name.endswith('.py')}
    assert here == set(made), 'missing or too many: %s' % sorted(here ^ set(made))
    for name, content in made.items():
        with open(os.path.join(HERE, name), 'rb') as stored:
            assert stored.read() == content, name + ' is not what make.py makes'
    print('examples: %d files are what make.py makes' % len(made))


def main():
    made = images()
    for name, image in made.items():
        assert as_named(name, image), name
    made['listings.txt'] = listings(made)
    if sys.argv[1:] == ['--check']:
        check(made)
        return
    for name, content in made.items():
        with open(os.path.join(HERE, name), 'wb') as out:
            out.write(content)


main()
