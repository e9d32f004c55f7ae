#!/usr/bin/env python3
"""Holds the calls on words against board.py, the reference model.

Each history begins with a board, formatted or made with rubbish wherever the document allows it, and goes on with writes, length changes and the
performing of their plans; between them reads, walks to a byte, on boards that are none too, and calls that are refused. target/c/words (words.c) makes the
same calls. run.sh builds that program first. Every way of planning must have been gone at least once, and every kind of walk.

    words.py [SEED [COUNT]]    COUNT histories (default: seed 1, 200 histories)
"""
import random
import re
import sys

from sending import Calls
import board as B
from making import PLAN, SIZES, WALKS, damaged, formatted, image_of, offset_past, rubbish_words, seed_and_count, some_board, some_bytes
from making import walk_kinds, walked_board, walked_byte

WALL = 2**64 - 1
LENGTHS = [1, 1, 2, 3, 6, 8, 9, 24, 64, 65, 200, 512, 600, 4096, 5000]
# The ways of the reference model that must be met, up to the end and past it.
GROWN = ['null.', 'grow1', 'grow2', 'grow3']
WAYS = ['empty', 'single word', 'tail', 'empty tail', '(null|grow). tail', '(null|grow). inside .*', '(null|grow). with length, .*'] \
    + [grown + ' (tail|inside .*|with length, .*)' for grown in GROWN] + ['inside at root over height %d' % h for h in range(4)] \
    + ['inside at pointer over height %d' % h for h in range(3)] + ['with length, height %d' % h for h in range(4)] \
    + ['past empty', 'past empty tail'] + ['past with length, height %d' % h for h in range(4)] + [grown + ' past with length, .*' for grown in GROWN]


def hashed(words):
    value = 14695981039346656037
    for word in words:
        value = ((value ^ word) * 1099511628211) & WALL
    return '%016x' % value


def first_board(rnd):
    """A sound board: formatted, or one whose first files are trees with holes, a third of its blocks free."""
    count = rnd.choice([16, 20, 40, 100, 300, 1024])
    if rnd.random() < 0.4:
        return formatted(rubbish_words(rnd, count))
    return some_board(rnd, count, range(6), holes=0.25, reserve=(count - 11) // 3)


class History:
    """Calls on one board, as they are sent and with what the reference model answers."""

    def __init__(self, rnd, number, calls, ways, walks):
        self.rnd, self.number, self.calls, self.ways, self.walks = rnd, number, calls, ways, walks
        self.board = first_board(rnd)
        self.put_board()

    def put_board(self):
        self.calls.lend(b'B', [len(self.board)], image_of(self.board), 'history %d' % self.number)

    def reads(self):
        rnd, calls = self.rnd, self.calls
        calls.check(B.check(self.board))
        calls.add(b'F', 'free count', 'free %d' % B.free_count(self.board))
        file = rnd.choice([rnd.randrange(7), rnd.randrange(32), 31, 32, WALL])
        size = B.size(self.board, file)
        calls.size(file, size)
        offset, length, fill = rnd.randrange(max(size, 0) + 3), rnd.choice([0, 1, 9, 64, 700]), rnd.randrange(256)
        calls.read(file, offset, length, fill, lambda *asked: B.read(self.board, *asked))
        self.walk()

    def walk(self):
        file, byte = walked_byte(self.rnd, self.board, range(6))
        block = B.walk(self.board, file, byte)
        self.walks |= walk_kinds(self.board, file, block)
        self.calls.add(b'T' + image_of([file, byte]), 'walk to byte %d of file %d' % (byte, file), 'walk %d' % (block or 0))

    def other_walks(self):
        """Walks on a board of any kind; then the board as it was."""
        kept = self.board
        if B.check(kept) == 0:
            self.board = walked_board(self.rnd, kept)
            self.put_board()
        for _ in range(6):
            self.walk()
        self.board = kept
        self.put_board()

    def room(self, pairs):
        """A plan slice's length: near what is needed, or ample."""
        return self.rnd.choice([max(0, 2 * pairs + self.rnd.choice([-1, 0, 1])), 2 * pairs, 2 * pairs + 20])

    def planned(self, call, name, plan):
        """Sends a call that plans; `plan` says what it answers on a slice. The plan is performed, whole or in part."""
        rnd = self.rnd
        whole = plan(PLAN)[0]
        room, fill = self.room(max(whole, 0)), rnd.getrandbits(64)
        answer, words = plan([fill] * room)
        self.calls.add(call + image_of([room, fill]), name, 'plan %d %s' % (answer, hashed(words)))
        if answer >= 0:
            self.perform(words, answer if rnd.random() < 0.9 else rnd.randrange(answer + 1))

    def perform(self, plan, pairs):
        rnd = self.rnd
        if rnd.random() < 0.1 and pairs > 0:
            plan = list(plan)
            plan[2 * rnd.choice([0, pairs - 1, rnd.randrange(pairs)])] = rnd.choice([len(self.board), WALL - 1, WALL, 2**63, len(self.board) - 1])
        if rnd.random() < 0.1:
            pairs = rnd.choice([len(plan) // 2, len(plan) // 2 + 1, 2**63, WALL, 0])
        answer, self.board = B.perform(self.board, plan, pairs)
        self.calls.add(b'P' + image_of([len(plan), *plan, pairs]), 'perform of %d pairs' % pairs, 'perform %d %s' % (answer, hashed(self.board)))

    def write(self):
        rnd = self.rnd
        file = rnd.choice([rnd.randrange(6)] * 12 + [31, 32, WALL])
        size = max(B.size(self.board, file), 0)
        offset = rnd.choice([size] * 4 + [rnd.randrange(size + 1)] * 4 + [offset_past(rnd, size)] * 6 + [0, size // 64 * 64, max(size - 1, 0), 32768, WALL])
        length = rnd.choice(LENGTHS + [0, max(size - offset, 0), rnd.randrange(1, 300), max(32768 - offset, 0) % 40000, max(32769 - offset, 0) % 40000])
        new = some_bytes(rnd, length)
        try:
            self.ways.append(B.plan_write(self.board, file, offset, new).way)
        except B.Refused:
            pass
        self.planned(b'W' + image_of([file, offset, length]) + bytes(new), 'write of %d bytes to file %d at %d' % (length, file, offset),
                     lambda plan: B.write(self.board, file, offset, new, plan))

    def set_length(self):
        rnd = self.rnd
        file = rnd.choice([rnd.randrange(6)] * 12 + [31, 32, WALL])
        size = max(B.size(self.board, file), 0)
        length = rnd.choice(SIZES + [size, size + rnd.randrange(100), rnd.randrange(size + 1), 32769, WALL])
        self.planned(b'L' + image_of([file, length]), 'length of file %d to %d' % (file, length), lambda plan: B.set_length(self.board, file, length, plan))

    def format(self):
        self.planned(b'M', 'format', lambda plan: B.format_board(self.board, plan))

    def damage(self):
        """One word made another, or the board of another length, for one round of calls; then the board as it was."""
        rnd, kept = self.rnd, self.board
        if rnd.random() < 0.3:
            self.board = rnd.choice([kept[:120], kept[:-1], kept + [0] * 8, []])
        else:
            self.board = damaged(rnd, kept)
        self.put_board()
        self.reads()
        self.write()
        self.set_length()
        if rnd.random() < 0.3:
            self.format()
        self.board = kept
        self.put_board()

    def run(self):
        for _ in range(self.rnd.randrange(8, 25)):
            call = self.rnd.choice([self.write] * 8 + [self.set_length] * 3 + [self.reads, self.damage, self.other_walks])
            call()
        self.reads()
        if self.rnd.random() < 0.2:
            self.format()
            self.reads()


def main():
    seed, count = seed_and_count(200)
    rnd, calls, ways, walks = random.Random(seed), Calls(), [], set()
    for number in range(count):
        History(rnd, number, calls, ways, walks).run()
    same = calls.same('words', '%d histories with %d writes planned' % (count, len(ways)))
    missed = [way for way in WAYS if not any(re.fullmatch(way, met) for met in ways)]
    for way in missed:
        print('words: no write went the way %r' % way)
    unwalked = [kind for kind in WALKS if kind not in walks]
    for kind in unwalked:
        print('words: no walk ' + kind)
    sys.exit(0 if same and not missed and not unwalked else 1)


main()
