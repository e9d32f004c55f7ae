#!/usr/bin/env python3
"""./list-board by itself prints E13's two lines, and on each image of examples/ what examples/listings.txt has, which the reference
model made. On each accepted board the printed blocks add up."""
import glob
import os
import subprocess
import sys

ROOT = os.path.dirname(os.path.dirname(os.path.dirname(os.path.abspath(__file__))))
sys.path.insert(0, os.path.join(ROOT, 'tests', 'reference'))
from making import E13
from sums import adds_up

EXAMPLES = os.path.join(ROOT, 'examples')
LISTINGS = os.path.join(EXAMPLES, 'listings.txt')


def list_board(*words):
    done = subprocess.run([os.path.join(ROOT, 'list-board'), *words], capture_output=True, text=True, check=True, cwd=EXAMPLES)
    return done.stdout


def listings():
    names = sorted(os.path.basename(path) for path in glob.glob(os.path.join(EXAMPLES, '*.img')))
    return [(name, list_board(name)) for name in names]


def main():
    printed = listings()
    assert list_board() == E13, 'list-board does not print what E13 has'
    with open(LISTINGS) as stored:
        assert stored.read() == '\n'.join(name + '\n' + text for name, text in printed), 'the listings are not those of examples/listings.txt'
    accepted = [(name, text) for name, text in printed if not text.startswith('refused')]
    # A board with the published block is sound, but none that the lister takes.
    sound = [name for name, text in printed if 'damaged' not in name and name != 'published.img']
    assert [name for name, text in accepted] == sound, 'a sound board refused, or a damaged one accepted'
    for name, text in accepted:
        assert adds_up(text), name + ': the printed blocks do not add up'
        assert not adds_up(text.replace('held 1\n', 'held 2\n', 1)), name + ': adds up with one block too many'
    refused = subprocess.run([os.path.join(ROOT, 'list-board'), 'no-such.img'], capture_output=True, cwd=EXAMPLES)
    assert refused.returncode == 2 and not refused.stdout, 'an image that cannot be read'
    print('list-board: %d example images, listings as examples/listings.txt has them; on %d accepted boards held, free and 11 make B' % (len(printed), len(accepted)))


main()
