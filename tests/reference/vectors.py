#!/usr/bin/env python3
"""Holds the definitions of crates/model, crates/bands and crates/bounds against board.py, a second model of document 01 and N1, N3, N4, N11 and N12 of
document 02.

Makes boards with rubbish wherever the document allows it, has board.py say what calls on them answer and leave, and has the prover
compute the same from the definitions. Among the calls is one for each way of planning that is met. The numbers are drawn from a seed.

Of boards with the published block there are few vectors, for the prover reads a word in as many steps as its address has. The definitions take any
layout; so most of N11 is held on boards of a narrow layout, which has spare words in the same places.

    vectors.py [SEED [COUNT]]    COUNT random boards (default: seed 1, 8 boards)
"""
import os
import random
import re
import shutil
import subprocess
import sys
import tempfile

import board as B
from making import E13, SIZES, WALKS, e2_board, image_of, laid, offset_past, seed_and_count, slice_for, some_bytes, walk_kinds, walked_board, walked_byte, with_word

ROOT = os.path.dirname(os.path.dirname(os.path.dirname(os.path.abspath(__file__))))
# By number; 5 never occurs.
FAULTS = ['', 'WordCount', 'Trailer', 'Damaged', 'FileNumber', '', 'End', 'FreeBlocks', 'PlanLength', 'PairCount', 'Address']
# Spare words in the leaves and in the inode pointer block, heights 0 and 1, as with the published block, but short lists of words.
NARROW = B.Layout(width=20, leaves=4, inodes=8, mark=3, blocks=512, most=3200, tallest=1, span=[160, 3200], bands=[(0, 160, 0), (161, 3200, 1)])
NARROW_SIZES = [0, 1, 7, 8, 159, 160, 161, 320, 325, 500, 1600, 3199, 3200]
HEAD = '''use Rattle.std.specs.Prelude.{◌≡◌, Bool, true, false, not, ◌&&◌, List, [], ◌∷◌, ◌++◌, ℕ, ◌+◌, replicate, get_or, ℤ, pos, negsuc, eqb, Option, Some, None, Ok, Err}
use Rattle.std.proofs.Common.{refl}
use Rattle.model.specs.declared.Fault.TheVariants.{WordCount, Trailer, Damaged, FileNumber, End, FreeBlocks, PlanLength, PairCount, Address}
use Rattle.model.specs.Answers.{Answer}
use Rattle.model.specs.Lists.{tabulate, occ}
use Rattle.model.specs.Layout.{Layout, house, published}
use Rattle.model.specs.Tree.{least}
use Rattle.model.specs.Board.{greatest, inode_of, walk_to, visits_to, contents, file_sound, trees_sound}
use Rattle.model.specs.Store.{store, flat, laid}
use Rattle.model.specs.Plan.{pairs}
use Rattle.model.specs.Change.{growth, write_plan, length_plan}
use Rattle.model.specs.Format.{format_plan}
use Rattle.model.specs.Hidden.{hidden}
use Rattle.model.specs.GivenUp.{length_gives, write_gives}
use Rattle.model.specs.Calls.{check_answer, free_count_answer, size_answer, read_answer, read_buffer, read_visited, Planned, lowest, write, write_visited, set_length, format, perform_answer, perform_board}
use Rattle.model.specs.Cabinet.{image_check, image_size, image_read, image_read_buffer}
use Rattle.model.specs.Lister.{listing}
use Rattle.model.proofs.Computing.{computes}
use Rattle.examples.specs.Examples.{same_list, same_answer}
use Rattle.bands.specs.Sheet.{row, sheet, lies, height_in, sheet_height}
use Rattle.bands.specs.Planned.{way_by, growth_by, grown_inode_by, some_plan_by, write_plan_by}
use Rattle.model.specs.Cut.{plan_of}
use Rattle.bounds.specs.Bounds.{t, u, v, most_blocks, most_stores, sharp_stores, store_count}

same_planned : Planned → Answer → List ℕ → Bool
same_planned p a slice = same_answer p.answer a && same_list p.slice slice

same_int : ℤ → ℤ → Bool
same_int (pos m) (pos n) = eqb m n
same_int (pos m) (negsuc n) = false
same_int (negsuc m) (pos n) = false
same_int (negsuc m) (negsuc n) = eqb m n

same_end : Option ℕ → Option ℕ → Bool
same_end None None = true
same_end None (Some n) = false
same_end (Some m) None = false
same_end (Some m) (Some n) = eqb m n

'''
ALONE = '// The definitions alone.\n#![tactic(auto)]\n'
# Counts of visited blocks that must be met, by the calls that answer them.
COUNTS = {'walk': set(range(5)), 'read': set(range(9)), 'write': set(range(9))}
OPEN = 'unfolding computes same_answer same_list same_planned same_int same_end row sheet lies height_in sheet_height way_by growth_by grown_inode_by some_plan_by write_plan_by t u v most_blocks most_stores sharp_stores store_count'


def numbers(xs):
    """A list in antt, its long runs as replicate."""
    if not xs:
        return '[]'
    parts, i = [], 0
    while i < len(xs):
        j = i
        while j < len(xs) and xs[j] == xs[i]:
            j += 1
        if j - i >= 8:
            parts.append('replicate %d %d' % (j - i, xs[i]))
        elif parts and parts[-1].endswith('∷ []'):
            parts[-1] = parts[-1][:-2] + ' ∷ '.join(map(str, xs[i:j])) + ' ∷ []'
        else:
            parts.append(' ∷ '.join(map(str, xs[i:j])) + ' ∷ []')
        i = j
    return '(%s)' % ' ++ '.join('(%s)' % part for part in parts)


def answer(n):
    assert n >= 0 or FAULTS[-n], 'a refusal by %d' % -n
    return '(Ok %d)' % n if n >= 0 else '(Err %s)' % FAULTS[-n]


def signed(n):
    return '(pos %d)' % n if n >= 0 else '(negsuc %d)' % (-n - 1)


def figures(layout):
    """The layout's figures by their names in the definitions."""
    return [('words', layout.width), ('height', layout.tallest), ('leaves', layout.leaves), ('inodes', layout.inodes), ('mark', layout.mark), ('most', layout.blocks)]


def layout_text(name, layout):
    """The layout as a definition in antt."""
    return 'abbrev %s : Layout\n%s = record { %s }\n\n' % (name, name, '; '.join('%s = %d' % figure for figure in figures(layout)))


class Vectors:
    """Theorems, each with the name of its board. LAYOUT in one is the layout that they are about."""

    def __init__(self):
        self.boards, self.all, self.kinds, self.walks, self.counts = {}, [], {}, set(), {}
        self.on('house', B.HOUSE)

    def on(self, name, layout):
        self.name, self.layout = name, layout

    def board(self, words):
        return self.boards.setdefault(tuple(words), 'b%d' % len(self.boards))

    def add(self, kind, words, test):
        name = self.board(words)
        self.all.append((name, test.replace('BOARD', name).replace('LAYOUT', self.name)))
        kind = kind if self.layout is B.HOUSE else '%s %s' % (self.name, kind)
        self.kinds[kind] = self.kinds.get(kind, 0) + 1

    def as_one(self, start):
        """The vectors from this one on as one theorem, of which the prover computes what they share but once. They are of one board."""
        [name] = {name for name, _ in self.all[start:]}
        self.all[start:] = [(name, ' && '.join(test for _, test in self.all[start:]))]

    def plan_write(self, words, file, offset, new):
        return B.plan_write(words, file, offset, new, self.layout)

    def planned(self, kind, words, call, args, room, model):
        got, plan = model(words, *args, [7] * room, self.layout)
        args = ' '.join(numbers(x) if isinstance(x, list) else str(x) for x in args)
        self.add(kind, words, 'same_planned (%s LAYOUT BOARD %s (replicate %d 7)) %s %s' % (call, args, room, answer(got), numbers(plan)))
        return got

    def write(self, words, file, offset, new, short=False):
        try:
            room = 2 * len(self.plan_write(words, file, offset, new).pairs())
        except B.Refused:
            room = 10
        room = max(0, room - 1) if short else room
        self.planned('write', words, 'write', [file, offset, new], room, B.write)
        if self.layout is B.HOUSE:
            count = B.write_visited(words, file, offset, new, [7] * room)[2]
            self.visited('write', words, 'write_visited LAYOUT BOARD %d %d %s (replicate %d 7)' % (file, offset, numbers(new), room), count)

    def visited(self, kind, words, count, wanted):
        """A count of visited blocks, beside what the same call answers: the last vector says both."""
        name, test = self.all[-1]
        self.all[-1] = (name, '%s && eqb (%s) %d' % (test, count.replace('BOARD', name).replace('LAYOUT', self.name), wanted))
        self.counts.setdefault(kind, set()).add(wanted)

    def length_plan(self, words, file, length):
        """The pairs of a length change, none where it is refused."""
        count, plan = B.set_length(words, file, length, slice_for(words), self.layout)
        return [tuple(plan[2 * i:2 * i + 2]) for i in range(count)]

    def length(self, words, file, length):
        self.planned('length', words, 'set_length', [file, length], 2 * len(self.length_plan(words, file, length)), B.set_length)

    def given(self, words, call, pairs):
        """How often the definition gives up each block: once where in the model it was live before or is stored to, and is not live when all is stored."""
        before, after = B.Survey(words, self.layout), list(words)
        stored = [pair for pair in pairs if pair[0] != B.BARRIER]
        for at, value in stored:
            after[at] = value
        gone = set(before.blocks) | {at // self.layout.width for at, _ in stored}
        gone -= set(B.Survey(after, self.layout).blocks)
        self.add('given up', words, 'same_list (tabulate %d (λ q. occ q (%s))) %s' % (before.count, call, numbers([int(k in gone) for k in range(before.count)])))

    def write_gives(self, words, file, offset, new):
        self.given(words, 'write_gives LAYOUT (lowest LAYOUT BOARD) BOARD %d %d %s' % (file, offset, numbers(new)), self.plan_write(words, file, offset, new).pairs())

    def length_gives(self, words, file, length):
        self.given(words, 'length_gives LAYOUT BOARD %d %d' % (file, length), self.length_plan(words, file, length))

    def format(self, words, room):
        self.planned('format', words, 'format', [], room, B.format_board)

    def check(self, words):
        self.add('check', words, 'same_answer (check_answer LAYOUT BOARD) %s && same_answer (free_count_answer LAYOUT BOARD) %s'
                 % (answer(B.check(words, self.layout)), answer(B.free_count(words, self.layout))))

    def size(self, words, file):
        self.add('size', words, 'same_answer (size_answer LAYOUT BOARD %d) %s' % (file, answer(B.size(words, file, self.layout))))

    def contents(self, words, file):
        self.add('contents', words, 'same_list (contents LAYOUT BOARD %d) %s' % (file, numbers(B.contents(words, file, self.layout))))

    def read(self, words, file, offset, out):
        got, buffer = B.read(words, file, offset, out, self.layout)
        args = '%d %d %s' % (file, offset, numbers(out))
        self.add('read', words, 'same_answer (read_answer LAYOUT BOARD %s) %s && same_list (read_buffer LAYOUT BOARD %s) %s'
                 % (args, answer(got), args, numbers(buffer)))
        if self.layout is B.HOUSE:
            self.visited('read', words, 'read_visited LAYOUT BOARD %s' % args, B.read_visited(words, file, offset, out)[2])

    def walk(self, words, file, i):
        """On any board; on an accepted one the survey must find the same block."""
        block, unit = B.walk(words, file, i, self.layout), self.layout.span[0]
        assert B.check(words, self.layout) != 0 or file > 31 or B.Survey(words, self.layout).data(file).get(i // unit * unit) == block
        if self.layout is B.HOUSE:
            self.walks |= walk_kinds(words, file, block)
        self.add('walk', words, 'same_end (walk_to LAYOUT BOARD %d %d) %s' % (file, i, '(Some %d)' % block if block else 'None'))
        self.visited('walk', words, 'visits_to LAYOUT BOARD %d %d' % (file, i), len(B.visits(words, file, i, self.layout)))

    def hidden(self, words, at, value):
        self.holds('hidden', words, 'hidden LAYOUT BOARD (store %d %d)' % (at, value), B.hidden(words, at, value, self.layout))

    def holds(self, kind, words, test, wanted):
        self.add(kind, words, test if wanted else 'not (%s)' % test)

    def perform(self, words, plan, pairs):
        got, left = B.perform(words, plan, pairs, self.layout)
        args = '%s %d' % (numbers(plan), pairs)
        self.add('perform', words, 'same_answer (perform_answer LAYOUT BOARD %s) %s && same_list (perform_board LAYOUT BOARD %s) %s'
                 % (args, answer(got), args, numbers(left)))

    # Parts of the calls, for published boards: of a trailer of 512 words, and of a long plan put in a slice, a call makes the prover read too much.

    def figures(self):
        """The layout's own figures, the greatest size, and the least height at both ends of each band."""
        for name, figure in figures(self.layout):
            self.add('figure', [], 'eqb LAYOUT.%s %d' % (name, figure))
        self.add('figure', [], 'eqb (greatest LAYOUT) %d' % self.layout.most)
        for first, last, _ in self.layout.bands:
            for size in (first, last):
                self.add('height', [], 'eqb (least LAYOUT.words LAYOUT.height %d) %d' % (size, B.least(size, self.layout)))

    def trees_sound(self, words):
        self.holds('trees', words, 'trees_sound LAYOUT BOARD', B.check(words, self.layout) != -3)

    def file_sound(self, words, file):
        """On a board that has nothing against it but this file."""
        self.holds('file', words, 'file_sound LAYOUT BOARD %d' % file, B.check(words, self.layout) != -3)

    def pairs(self, kind, words, plan, pairs):
        """FRESH in the plan is the model's list of the free blocks."""
        fresh = '(λ i. get_or %s i 0)' % numbers(B.Survey(words, self.layout).free)
        self.add(kind, words, 'same_list (flat (pairs (%s))) %s' % (plan.replace('FRESH', fresh), numbers([x for pair in pairs for x in pair])))

    def write_pairs(self, words, file, offset, new):
        self.pairs('write', words, 'write_plan LAYOUT FRESH BOARD %d %d %s' % (file, offset, numbers(new)), self.plan_write(words, file, offset, new).pairs())

    def growth_pairs(self, words, file, end):
        """The first two epochs of a write of one byte."""
        level, root = self.plan_write(words, file, end - 1, [7]).epochs[:2]
        self.pairs('growth', words, 'growth LAYOUT FRESH (inode_of LAYOUT BOARD %d) %d' % (file, end), level + [(B.BARRIER, 0)] + root)

    def length_pairs(self, words, file, length):
        self.pairs('length', words, 'length_plan LAYOUT BOARD %d %d' % (file, length), self.length_plan(words, file, length))

    def format_pairs(self, words):
        self.pairs('format', words, 'format_plan LAYOUT BOARD', B.format_pairs(len(words) // self.layout.width, self.layout))

    # The house's alone.

    def most_stores(self, length):
        self.add('most stores', [], 'eqb (most_stores %d) %d && eqb (sharp_stores %d) %d' % (length, B.most_stores(length), length, B.sharp_most_stores(length)))

    def stores(self, words, file, offset, new):
        """How many stores the plan of a write has; how many fewer than it may have."""
        pairs = self.plan_write(words, file, offset, new).pairs()
        self.add('stores', words, 'eqb (store_count (plan_of (write LAYOUT BOARD %d %d %s (replicate %d 7)))) %d'
                 % (file, offset, numbers(new), 2 * len(pairs), B.store_count(pairs)))
        return B.sharp_most_stores(len(new)) - B.store_count(pairs)

    def height(self, size):
        self.add('height', [], 'eqb (sheet_height %d) %d' % (size, B.least(size)))

    def write_by(self, words, file, offset, new, tall, least):
        """A write's plan with its height chosen by `tall`, which is `least` in board.py's place of it."""
        before, B.least = B.least, least
        plan = [x for pair in B.plan_write(words, file, offset, new).pairs() for x in pair]
        B.least = before
        self.add('write by a height', words, 'same_list (laid (replicate %d 7) 0 (pairs (write_plan_by house %s (lowest house BOARD) BOARD %d %d %s))) %s'
                 % (len(plan), tall, file, offset, numbers(new), numbers(plan)))

    def image(self, image, file, offset, out):
        got, buffer = B.image_read(image, file, offset, out)
        args = '%d %d %s' % (file, offset, numbers(out))
        self.add('image', image, 'same_int (image_check house BOARD) %s && same_int (image_size house BOARD %d) %s && same_int (image_read house BOARD %s) %s'
                 ' && same_list (image_read_buffer house BOARD %s) %s && same_list (listing house BOARD) %s'
                 % (signed(B.image_check(image)), file, signed(B.image_size(image, file)), args, signed(got), args, numbers(buffer),
                    numbers(list(B.listing(image).encode()))))


# ---- Boards


def made(vectors, rnd, count, file, height, size, exists):
    """A board with one file, whose live pointer over height h at byte x leads to a block where exists(h, x); rubbish elsewhere."""
    return laid(rnd, count, {file: (height, size)}, exists, layout=vectors.layout)


def one_file(vectors, rnd):
    """A board with a file, whose blocks are all there, or some, or those on the path to its last byte; and the file."""
    layout = vectors.layout
    while True:
        count, file, height = rnd.choice([16, 18, 24, 40]), rnd.randrange(32), rnd.choice([h for h in [0, 1, 1, 2, 2, 3] if h <= layout.tallest])
        size = rnd.choice(SIZES if layout is B.HOUSE else NARROW_SIZES)
        holes = rnd.choice([0, 0, 0.3, 1])
        along = rnd.random() < 0.5

        def exists(h, start):
            return start <= size - 1 < start + layout.span[h] if along else rnd.random() >= holes
        try:
            return made(vectors, rnd, count, file, height, size, exists), file
        except IndexError:
            continue


# ---- Vectors


# Writes past the end: height, size, offset, and below which height the path to the last byte is null.
PAST = [(0, 64, 65, 0), (0, 64, 4096, 1), (0, 100, 130, 0), (0, 100, 600, 0), (1, 600, 5000, 0), (1, 64, 128, 0), (1, 64, 65, 1), (1, 70, 71, 0), (1, 70, 300, 2),
        (2, 512, 513, 0), (2, 512, 1024, 1), (2, 512, 600, 2), (2, 600, 700, 1), (2, 600, 2000, 0), (3, 4096, 4097, 1)]
NARROW_PAST = [(0, 160, 161, 0), (0, 160, 800, 1), (1, 160, 320, 0), (1, 160, 161, 1), (1, 170, 171, 0)]


def ways_within(tallest):
    """The ways of planning that must be met at offsets up to the size."""
    heights = range(tallest + 1)
    return ['single word', 'tail', 'empty tail'] + ['grow%d tail' % d for d in (1, 2) if d <= tallest] + ['inside at root over height %d' % h for h in heights] \
        + ['inside at pointer over height %d' % h for h in heights[:-1]] + ['with length, height %d' % h for h in heights] \
        + ['null%d inside at root over height %d' % (d, tallest) for d in heights[1:]] + ['grow%d inside at pointer over height %d' % (tallest, tallest - 1)]


def ways_past(tallest):
    """Those that must be met past it."""
    heights = range(tallest + 1)
    return ['past empty tail'] + ['past with length, height %d' % h for h in heights] \
        + ['%s%d past with length, height %d' % (how, d, h) for how in ('grow', 'null') for h in heights for d in range(1, h + 1)]


def offset_within(rnd, size, layout):
    return rnd.choice([size, size, max(0, size - rnd.randrange(1, 70)), rnd.randrange(size + 1)])


def every_way(vectors, rnd, offset_of, wanted, tries):
    """One write for each way of planning that is met; the wanted ones must be."""
    ways = {}
    for _ in range(tries):
        words, file = one_file(vectors, rnd)
        offset = offset_of(rnd, B.size(words, file, vectors.layout), vectors.layout)
        new = some_bytes(rnd, rnd.choice([1, 2, 7, 8, 9, 60, 64, 65, 130, 450, 520]))
        try:
            plan = vectors.plan_write(words, file, offset, new)
        except B.Refused:
            continue
        if len(plan.pairs()) < ways.get(plan.way, (10**9,))[0]:
            ways[plan.way] = (len(plan.pairs()), words, file, offset, new)
    for way in sorted(ways):
        _, words, file, offset, new = ways[way]
        vectors.write(words, file, offset, new)
        vectors.write_gives(words, file, offset, new)
    for want in wanted(vectors.layout.tallest):
        assert want in ways, 'no write went the way: ' + want
    return len(ways)


def null_on_path(vectors, rnd, shapes):
    """Writes at the end of a file whose path is null from some height down: a tail only where no live pointer is."""
    for height, size in shapes:
        for low in range(height + 1):
            def exists(h, start):
                return h >= low and start <= size < start + vectors.layout.span[h]
            file = rnd.randrange(32)
            vectors.write(made(vectors, rnd, 24, file, height, size, exists), file, size, [rnd.randrange(256)])


def past_the_end(vectors, rnd, shapes):
    """Writes past the end of a file whose path to its last byte is null below some height, its other blocks there or not."""
    for height, size, offset, low in shapes:
        def exists(h, start):
            return h >= low if h == height or start < size <= start + vectors.layout.span[h] else rnd.random() < 0.2
        file = rnd.randrange(32)
        vectors.write(made(vectors, rnd, 40, file, height, size, exists), file, offset, some_bytes(rnd, rnd.randrange(1, 20)))


def other_lengths(vectors, rnd):
    """The blocks given up by a shorter length, down to each height's first bytes; by a longer one and by the same none."""
    for height, size in [(0, 64), (1, 130), (2, 700), (3, 4200)]:
        words = made(vectors, rnd, 40, 9, height, size, lambda h, start: start < size + 512 and rnd.random() < (0.3, 0.5, 1, 1)[h])
        for length in sorted({0, 1, 64, 65, 513, 4097, size - 1, size, size + 70}):
            if length <= size + 70:
                vectors.length_gives(words, 9, length)


def each_damage(vectors, rnd, height, size, held):
    """A board with one word made another: in the trailer, an inode pointer, a spare one, a size, a root, a live and a dead pointer. Of file 9, the data
    blocks held are those at these bytes."""
    layout, width = vectors.layout, vectors.layout.width
    words = made(vectors, rnd, 24, 9, height, size, lambda h, start: h > 0 or start in held)
    survey = B.Survey(words, layout)
    root = survey.inode(9)
    live = [at for at, (_, _, is_live) in survey.cells.items() if is_live and at != root]
    dead = [at for at, (_, _, is_live) in survey.cells.items() if not is_live and at // width not in survey.leaves]
    pointers, last, twice = width * survey.pointer_block, width * (survey.count - 1), width * survey.leaves[3]
    pointer, spares = pointers + 2, [j for j in (layout.leaves, width - 1) if layout.leaves < width]
    changes = [(last + j, words[last + j] + 1) for j in range(width)] + [(last, words[last] + width * survey.count), (last, 1)]
    changes += [(pointer, v) for v in (0, words[pointer] + 1, words[pointer] + 4, last, twice)] + [(pointers + j, v) for j in spares for v in (1, twice)]
    changes += [(root + 1, v) for v in (size + 1, layout.most, layout.most + 1, 2**64 - 1)]
    changes += [(root, v) for v in (words[root] + layout.tallest, layout.tallest + 1, last + height, twice + height, height)]
    changes += [(at, v) for at in live[:2] + live[-1:] for v in (words[at] + 1, words[at] + 4, last, twice, 0)] + [(dead[0], twice + 3)]
    for at, value in changes:
        vectors.check(with_word(words, at, value))
    for other in (layout.most, layout.most + 1):
        vectors.check(words[:root] + [layout.tallest, other] + words[root + 2:])


def bench(vectors):
    """E10 and E12 on E2's board, writes of no bytes among them; past the end, a plan slice too short and, as in E9, all free blocks and one
    more; E13's image, whole and cut short."""
    words = e2_board([7] * 128)
    for offset, new in [(0, []), (2, []), (3, []), (32768, []), (32769, []), (2, [9]), (3, [9]), (32768, [9]), (2, [9] * 32767)]:
        vectors.write(words, 0, offset, new)
    vectors.write(words, 0, 3, [9], short=True)
    for offset, new in [(300, [9] * 148), (300, [9] * 149)]:
        vectors.write(words, 1, offset, new)
    for length in (32768, 32769):
        vectors.length(words, 0, length)
    image = image_of(words)
    assert B.listing(image) == E13
    for part in (image, image[:-1], image[:960], image[:7], b''):
        vectors.image(part, 0, 1, [9, 9, 9])


def each_height(vectors, rnd):
    """Images of boards with a file of each height: whole, with holes, with one path, with a null root; rubbish past the size in each."""
    for height, size, held, exists in [(0, 20, 1, lambda h, start: True), (1, 130, 4, lambda h, start: True),
                                       (2, 700, 5, lambda h, start: h > 0 or start in (0, 512)),
                                       (3, 4200, 4, lambda h, start: start <= 4199 < start + B.HOUSE.span[h]), (3, 600, 0, lambda h, start: False)]:
        image = image_of(made(vectors, rnd, 20, 9, height, size, exists))
        assert B.listing(image).endswith('file 9 size %d height %d held %d\n' % (size, height, held)), B.listing(image)
        vectors.image(image, 9, size - 2, [9, 9, 9])


def each_band(vectors, rnd):
    """The height by the bench sheet, at both ends of each band and at a size between them. Writes into an empty file and after growth, planned
    with that height and with one more."""
    for first, last, _ in B.HOUSE.bands:
        for size in (first, rnd.randrange(first + 1, last), last):
            vectors.height(size)
    for height, size in [(0, 0), (0, 20)]:
        words = made(vectors, rnd, 24, 9, height, size, lambda h, start: True)
        for tall, least in [('sheet_height', B.least), ('(λ e. least 8 3 e + 1)', lambda end, layout, least=B.least: least(end, layout) + 1)]:
            vectors.write_by(words, 9, size, some_bytes(rnd, 100), tall, least)


def costs(vectors, rnd):
    """The most stores of a write, on both sides of counts of bytes where t grows, u grows too, and v too; and stores of plans: of a word, of two bytes that
    cost as many as they may, and of some more."""
    for length in (1, 2, 24, 65, 66, 513, 514, 1025, 1026, 4096, 4097, 4098, 32705, 32768):
        vectors.most_stores(length)
    words = made(vectors, rnd, 32, 9, 0, 4096, lambda h, start: True)
    spare = [vectors.stores(words, 9, offset, some_bytes(rnd, count)) for offset, count in [(0, 3), (4095, 2), (63, 2), (100, 24)]]
    assert spare[1] == 0, 'the bound is not met'


def walks(vectors, rnd):
    """Walks on a board with one word made another, cut short, and on boards of every kind, for files and bytes of any number."""
    words = made(vectors, rnd, 24, 9, 2, 700, lambda h, start: h > 0 or start in (0, 512))
    survey = B.Survey(words)
    root, pointer, last = survey.inode(9), 8 * survey.pointer_block + 2, 8 * (survey.count - 1)
    below = 8 * (words[root] // 8) + 1
    for at, value, i in [(root, last, 5), (root, last + 8, 5), (root, 2**64 - 8, 63), (root, 2, 0), (root, words[root] + 5, 0), (root, words[root] + 5, 2**27),
                         (root + 1, 0, 0), (root + 1, 512, 512), (root + 1, 2**64 - 1, 4095), (below, last + 8, 512), (below, 3, 512), (below, words[below] + 3, 520),
                         (pointer, 0, 0), (pointer, 5, 0), (pointer, last + 8, 0), (pointer, words[pointer] + 3, 600), (last, 1, 0), (last, last + 9, 0),
                         (last, words[last] + 6, 600), (last + 2, 7, 600)]:
        vectors.walk(with_word(words, at, value), 9, i)
    for length in (0, 1, 8, 15, 16, 24, 40, len(words) - 1):
        vectors.walk(words[:length], 9, 0)
    for file in (10, 32, 41, 2**64 - 1):
        vectors.walk(words, file, 0)
    for _ in range(30):
        words, file = one_file(vectors, rnd)
        words = walked_board(rnd, words)
        for _ in range(2):
            vectors.walk(words, *walked_byte(rnd, words, [file]))
    for kind in WALKS:
        assert kind in vectors.walks, 'no walk ' + kind


def visits(vectors, rnd):
    """Walks, reads and writes in trees of each height with holes on each level: one stretch and two, past the size and past the span."""
    for height in range(4):
        words = made(vectors, rnd, 40, 9, height, min(1300, 64 * 8**height - 9), lambda h, start: start < 1024 if h else start in (0, 64, 512))
        for i in (0, 64, 128, 576, 1024, 1400, 4096, 32767, 32768):
            vectors.walk(words, 9, i)
        for offset, count in [(0, 1), (63, 2), (1, 64), (60, 70), (500, 13), (1020, 9)]:
            vectors.read(words, 9, offset, [9] * count)
        for offset, count in [(0, 1), (63, 2), (500, 20), (1290, 20), (1400, 3)]:
            vectors.write(words, 9, offset, some_bytes(rnd, count))


def at_random(vectors, rnd, count):
    layout = vectors.layout
    for _ in range(count):
        words, file = one_file(vectors, rnd)
        size = B.size(words, file, layout)
        new = some_bytes(rnd, rnd.randrange(100))
        vectors.write(words, file, rnd.choice([size, size // 2, offset_past(rnd, size, layout)]), new, short=rnd.random() < 0.3)
        vectors.write(words, rnd.choice([file, 31, 32, 2**64 - 1]), rnd.choice([size + 1, size, 0, 2**64 - 1]), new[:3])
        vectors.length(words, file, rnd.choice([0, 1, size, size + 1, size + 70, max(0, size - 1), layout.most // 8 + 1, layout.most, layout.most + 1, 2**64 - 1]))
        vectors.check(words)
        vectors.size(words, rnd.choice([file, 31, 32]))
        if size < 800:
            vectors.contents(words, file)
            vectors.read(words, file, rnd.choice([0, 1, size // 2, size, size + 1, 2**64 - 1]), [9] * rnd.choice([0, 1, 8, 70]))
        vectors.walk(words, file, rnd.choice([0, 63, 64, size, max(0, size - 1), 5000, 2**64 - 1]))
        survey = B.Survey(words, layout)
        at = rnd.choice(list(survey.cells) + [layout.width * k + rnd.randrange(layout.width) for k in list(survey.blocks) + survey.free[:3]])
        vectors.hidden(words, at, rnd.choice([words[at], words[at] ^ (1 << rnd.randrange(64)), rnd.getrandbits(64)]))
        pairs, plan = B.write(words, file, size, new[:9], [5] * 400, layout)
        if pairs > 0:
            vectors.perform(words, plan[:2 * pairs], rnd.choice([pairs, pairs, pairs // 2, pairs + 1, 2**64 - 1]))
        vectors.perform(words, [8, 3, B.BARRIER, 5, len(words) - rnd.randrange(2), 1], 3)
        needed = 2 * len(B.format_pairs(survey.count, layout))
        vectors.format(words[:rnd.choice([len(words), 15 * layout.width, len(words) - 1])], rnd.choice([needed, needed + 4, needed - 1]))


# ---- Vectors of boards with the published block


def narrow(vectors, rnd):
    """Calls on boards of the narrow layout; how many ways of planning they go."""
    vectors.on('narrow', NARROW)
    ways = every_way(vectors, rnd, offset_within, ways_within, 600) + every_way(vectors, rnd, offset_past, ways_past, 300)
    null_on_path(vectors, rnd, [(1, 160), (1, 170), (1, 320)])
    past_the_end(vectors, rnd, NARROW_PAST)
    each_damage(vectors, rnd, 1, 380, (0, 320))
    at_random(vectors, rnd, 2)
    return ways


def sparse(count, pointers, leaf, held):
    """A published board of zeros, which are quickly read, but for the trailer, the inode pointer and the words held, by block and place."""
    width = B.PUBLISHED.width
    words = [0] * (width * count)
    words[width * (count - 1):] = [width * pointers + 1] + B.PUBLISHED.trailer(count)
    words[width * pointers] = width * leaf
    for block in held:
        for j, value in held[block].items():
            words[width * block + j] = value
    return words


def published(vectors, rnd):
    vectors.on('published', B.PUBLISHED)
    vectors.figures()
    words = without_pointers(rnd)
    whole_calls(vectors, words)
    turned_away(vectors, words)
    vectors.write_pairs(words, 0, 11, [9, 8])
    with_a_node(vectors, one_node(rnd))


def without_pointers(rnd):
    """File 0 of 9 bytes, file 5 of a whole block, file 31 a hole of height 1, file 3 of size 0; rubbish where it decides nothing."""
    def bits():
        return rnd.getrandbits(64)
    return sparse(16, 1, 2, {
        0: {0: bits(), 511: bits()},
        2: {0: 512 * 3, 1: 9, 6: bits(), 10: 512 * 4, 11: 4096, 62: 1, 63: 9000, 64: bits(), 511: bits()},
        3: {0: bits(), 1: bits(), 2: bits()},
        4: {0: bits(), 511: bits()},
        9: {4: bits()},
    })


def one_node(rnd):
    """File 3 of 4,090 bytes with a pointer block, of which the first pointer alone is live; file 5 of a whole block."""
    def bits():
        return rnd.getrandbits(64)
    return sparse(17, 3, 2, {
        1: {0: 512 * 12, 1: bits(), 2: 512 * 2, 511: bits()},
        2: {6: 512 + 1, 7: 4090, 10: 512 * 13, 11: 4096, 64: bits()},
        12: {0: bits(), 510: bits(), 511: bits()},
    })


def whole_calls(vectors, words):
    """All in one, since each has to read the trailer."""
    start = len(vectors.all)
    vectors.check(words)
    for file in (5, 31, 32):
        vectors.size(words, file)
    vectors.read(words, 0, 3, [9] * 10)
    for file, offset, new in [(0, 2, [99]), (0, 9, [99, 98]), (0, 30, []), (0, 2097151, [1, 2]), (32, 0, [1])]:
        vectors.write(words, file, offset, new)
    for length in (30, 2097153):
        vectors.length(words, 0, length)
    vectors.as_one(start)


def turned_away(vectors, words):
    """By the word count; by first words of the trailer; by an inode pointer, a spare one among them; by a file."""
    for count in (7680, 8191, 8200):
        vectors.check((words + [0] * 8)[:count])
    vectors.perform(words[:7680], [], 0)
    vectors.format(words[:7680], 4)
    vectors.format(words, 3077)
    for at, value in [(7680, 0), (7680, 1), (7680, 512), (7680, 514), (7680, 7681), (7681, 511), (7682, 17), (7683, 1), (7683, 2), (7684, 1)]:
        vectors.check(with_word(words, at, value))
    for at, value in [(512, 0), (512, 1025), (512, 512), (512, 7680), (513, 1), (514, 512 * 5)]:
        vectors.trees_sound(with_word(words, at, value))
    for at, value in [(1034, 512 * 4 + 2), (1034, 512 * 15), (1034, 1), (1034, 2), (1034, 511), (1035, 2097152), (1035, 2097153)]:
        vectors.file_sound(with_word(words, at, value), 5)


def with_a_node(vectors, words):
    vectors.file_sound(words, 3)
    for at, value in [(512, 512 * 12 + 511), (512, 512 * 16)]:
        vectors.file_sound(with_word(words, at, value), 3)
    start = len(vectors.all)
    for file, byte in [(3, 0), (3, 4095), (3, 4096), (3, 2097151), (3, 2097152), (5, 4095), (5, 4096)]:
        vectors.walk(words, file, byte)
    vectors.as_one(start)
    vectors.write_pairs(words, 3, 4090, list(range(20)))
    vectors.growth_pairs(words, 5, 4097)
    vectors.write_pairs(words, 7, 2, [1, 2, 3])
    vectors.length_pairs(words, 3, 4100)
    vectors.format_pairs(words)
    for plan, pairs in [([0, 5, B.BARRIER, 3, 8703, 2], 3), ([0, 5, 8704, 3], 2), ([0, 5], 2)]:
        vectors.perform(words, plan, pairs)


# ---- The prover


def text_of(vectors, chosen):
    """A file with a theorem for each chosen vector."""
    names = {name: words for words, name in vectors.boards.items()}
    text = HEAD + layout_text('narrow', NARROW)
    for name in sorted({vectors.all[i][0] for i in chosen}):
        text += '%s : List ℕ\n%s = %s\n\n' % (name, name, numbers(list(names[name])))
    for i in chosen:
        name, test = vectors.all[i]
        text += 'v%d : (%s) ≡ true\n%s %s\nv%d = refl\n\n' % (i, test, OPEN, name, i)
    return text


def prove(vectors, crates=2):
    """What the prover says of the vectors as theorems, in some crates side by side over a copy of the definitions."""
    beside = ('examples', 'bands', 'bounds')
    texts = {'model/proofs/Lib.antt': 'pub mod Computing\n', **{name + '/src/lib.rt': ALONE for name in beside}}
    listed = 'model:\n' + ''.join(name + ': model\n' for name in beside)
    for c in range(crates):
        listed += 'vectors%d: model %s\n' % (c, ' '.join(beside))
        texts['vectors%d/src/lib.rt' % c] = '#![tactic(auto)]\n\npub const PART: usize = %d;\n' % c
        texts['vectors%d/proofs/Lib.antt' % c] = 'pub mod Vectors\n'
        texts['vectors%d/proofs/Vectors.antt' % c] = text_of(vectors, range(c, len(vectors.all), crates))
    place = tempfile.mkdtemp()
    try:
        for part in ('model/src', 'model/specs', 'model/proofs/Computing.antt', *(name + '/specs' for name in beside)):
            source, target = os.path.join(ROOT, 'crates', part), os.path.join(place, 'crates', part)
            os.makedirs(os.path.dirname(target), exist_ok=True)
            (shutil.copytree if os.path.isdir(source) else shutil.copy)(source, target)
        for name, text in dict(texts, **{'../crates.txt': listed}).items():
            path = os.path.join(place, 'crates', name)
            os.makedirs(os.path.dirname(path), exist_ok=True)
            with open(path, 'w') as file:
                file.write(text)
        done = subprocess.run(['rt', 'all', 'check', '--jobs', str(crates)], cwd=place, capture_output=True, text=True)
        return done.returncode, done.stdout + done.stderr
    finally:
        shutil.rmtree(place)


def main():
    seed, count = seed_and_count(8)
    rnd = random.Random(seed)
    vectors = Vectors()
    ways = every_way(vectors, rnd, offset_within, ways_within, 4000) + every_way(vectors, rnd, offset_past, ways_past, 2000)
    null_on_path(vectors, rnd, [(1, 64), (1, 70), (2, 64), (2, 576), (2, 512), (2, 600), (3, 576), (3, 4160), (3, 4608), (3, 4096)])
    past_the_end(vectors, rnd, PAST)
    other_lengths(vectors, rnd)
    each_damage(vectors, rnd, 2, 700, (0, 512))
    bench(vectors)
    at_random(vectors, rnd, count)
    each_height(vectors, rnd)
    each_band(vectors, rnd)
    walks(vectors, rnd)
    costs(vectors, random.Random(seed))
    visits(vectors, random.Random(seed))
    ways += narrow(vectors, rnd)
    published(vectors, rnd)
    for kind, wanted in COUNTS.items():
        missed = wanted - vectors.counts[kind]
        assert not missed, 'no %s visited so many blocks: %s' % (kind, missed)
    status, said = prove(vectors)
    failed = sorted({int(i) for i in re.findall(r'error: `v(\d+)`', said)})
    for i in failed:
        print('vector %d fails: %s' % (i, vectors.all[i][1][:300]))
    if status and not failed:
        sys.exit(said[-3000:] + 'vectors: the prover did not come to them')
    print('vectors: %d computed from the definitions as the reference model has them, %d not; %d ways of planning; %s'
          % (len(vectors.all) - len(failed), len(failed), ways, ', '.join('%s %d' % kind for kind in sorted(vectors.kinds.items()))))
    sys.exit(1 if status else 0)


main()
