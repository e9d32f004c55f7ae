"""What the tests in Python share, which hold something against the model (board.py): boards to test with, sound ones with rubbish
wherever the document allows it, and damaged ones; numbers and bytes drawn at random; and how images and numbers are written as bytes."""
import struct
import sys

import board as B

PLAN = [0] * 12000  # room for every plan on the house's boards
# Of files: at and around the spans and the bounds of words and blocks.
SIZES = [0, 1, 7, 8, 63, 64, 65, 128, 130, 448, 500, 512, 513, 700, 4096, 4097, 4100, 9000, 32704, 32767, 32768]
# What the lister prints on E2's board, by E13 with the column of N1.
E13 = 'blocks 16 free 4\nfile 0 size 2 height 0 held 1\n'


def seed_and_count(count):
    """The words SEED and COUNT of the command line, or seed 1 and this count."""
    given = list(map(int, sys.argv[1:3]))
    return given + [1, count][len(given):]


# ---- Bytes


def image_of(words):
    """Numbers of 64 bits as bytes, the lowest first: a board's image, or what a program is sent."""
    return struct.pack('<%dQ' % len(words), *words)


def some_bytes(rnd, count):
    return [rnd.randrange(256) for _ in range(count)]


# ---- Boards by the model's own calls


def slice_for(words):
    """A slice for any plan on the board, which has fewer pairs than the board has words."""
    return [0] * (2 * len(words))


def performed(words, planned, pairs=None, layout=B.HOUSE):
    """The board after the plan, or after its first pairs; the same board where the call was refused."""
    count, plan = planned
    return B.perform(words, plan, count if pairs is None else pairs, layout)[1] if count > 0 else words


def accepted(words, planned, layout=B.HOUSE):
    """The board after the plan of a call that must not be refused."""
    assert planned[0] >= 0, 'refused %d' % -planned[0]
    return performed(words, planned, layout=layout)


def formatted(words, layout=B.HOUSE):
    return accepted(words, B.format_board(words, slice_for(words), layout), layout)


def with_writes(words, writes, layout=B.HOUSE):
    """The board after these writes, none of which may be refused: file, offset, bytes."""
    for file, offset, new in writes:
        words = accepted(words, B.write(words, file, offset, list(new), slice_for(words), layout), layout)
    return words


def with_lengths(words, lengths, layout=B.HOUSE):
    """The board after these length changes, none of which may be refused: file, length."""
    for file, length in lengths:
        words = accepted(words, B.set_length(words, file, length, slice_for(words), layout), layout)
    return words


def e2_board(words):
    """E2's, over 128 words that may hold anything."""
    return with_writes(formatted(words), [(0, 0, b'AB')])


def offset_past(rnd, size, layout=B.HOUSE):
    """An offset past the end: nearby, where the next block or its node begins, or anywhere."""
    data, node = layout.span[:2]
    return rnd.choice([size + 1, size + rnd.randrange(1, 9), size + rnd.randrange(1, 50), size // data * data + data, size // node * node + node,
                       rnd.randrange(size + 1, layout.most + 232)])


# ---- Laid boards


def rubbish(rnd, count, layout=B.HOUSE):
    """Bits for a word that decides nothing on a board of count blocks."""
    return rnd.choice([rnd.getrandbits(64), layout.width * rnd.randrange(1, count), rnd.randrange(layout.width * count + 40)])


def rubbish_words(rnd, count, layout=B.HOUSE):
    return [rubbish(rnd, count, layout) for _ in range(layout.width * count)]


def laid(rnd, count, files, exists, reserve=None, layout=B.HOUSE):
    """A sound board of count blocks in any order. `files` has the height and the size of some files, by number; the others are empty. A live
    pointer over height h at byte x leads to a block where exists(h, x). With a reserve so many blocks stay free, and pointers are null when only
    those are left; without it blocks that do not suffice are an IndexError. Every word that decides nothing is rubbish."""
    width, words, pool = layout.width, rubbish_words(rnd, count, layout), list(range(1, count - 1))
    rnd.shuffle(pool)
    pointers, leaves = pool.pop(), [pool.pop() for _ in range(layout.leaves)]
    words[width * (count - 1):] = [width * pointers + 1] + layout.trailer(count)
    words[width * pointers:width * (pointers + 1)] = [width * leaf for leaf in leaves] + [0] * (width - layout.leaves)

    def tree(height, start, size):
        if start >= size:
            return rubbish(rnd, count, layout)
        if reserve is not None and len(pool) <= reserve or not exists(height, start):
            return 0
        block = pool.pop()
        for j in range(width if height else 0):
            words[width * block + j] = tree(height - 1, start + j * layout.span[height - 1], size)
        return width * block

    inodes = [width * leaf + 2 * j for leaf in leaves for j in range(layout.inodes)]
    for at in inodes:
        words[at + 1] = 0
    for file, (height, size) in files.items():
        at = inodes[file]
        words[at + 1] = size
        if size:
            words[at] = tree(height, 0, size) + height
    assert B.check(words, layout) == 0
    return words


def some_board(rnd, count, files, holes, reserve=0):
    """A sound board of count blocks with a tree of any height and size for each of these files; so great a share of the live pointers is null."""
    shapes = {file: (rnd.randrange(4), rnd.choice(SIZES)) for file in files}
    return laid(rnd, count, shapes, lambda h, start: rnd.random() >= holes, reserve)


def hostile(rnd, length):
    """So many words of which nothing is known."""
    return [rubbish(rnd, length // 8 + 2) for _ in range(length)]


# ---- Damage


def with_word(words, at, value):
    return words[:at] + [value] + words[at + 1:]


def spoilt(rnd, words, at, blocks):
    """Another value for a word: a bit of it flipped, a pointer to one of these blocks or a root there, a word from elsewhere, a size, any bits."""
    block = rnd.choice(blocks)
    return rnd.choice([words[at] ^ 1 << rnd.randrange(64), words[at] ^ 1 << rnd.randrange(14), 8 * block, 8 * block + rnd.randrange(8), rnd.choice(words),
                       8 * rnd.randrange(len(words) // 8 + 2), rnd.randrange(9), rnd.randrange(32770), 32768 + rnd.randrange(2), 2**63, rnd.getrandbits(64)])


def places(words):
    """The words that decide something, by what they are, and all words; of a board that is refused the trailer, the blocks that format fills, and all.
    And the live blocks, of a refused board all."""
    every, trailer = range(len(words)), range(len(words) - 8, len(words))
    if B.check(words) != 0:
        return [trailer, range(8, 80), every], range(len(words) // 8)
    survey = B.Survey(words)
    pointers = range(8 * survey.pointer_block, 8 * survey.pointer_block + 8)
    leaves = [8 * leaf + j for leaf in survey.leaves for j in range(8)]
    sizes = [survey.inode(file) + 1 for file in range(32)]
    return [trailer, pointers, leaves, list(survey.cells), sizes, every], list(survey.blocks)


def damaged(rnd, words, count=1):
    """The board, of at least 80 words, with so many words made others, most often words that decide something."""
    kinds, blocks = places(words)
    for at in [rnd.choice(rnd.choice(kinds)) for _ in range(count)]:
        words = with_word(words, at, spoilt(rnd, words, at, blocks))
    return words


def null_inodes(rnd, words):
    """The sound board with its inode root, or any four of its inode pointers, null; low bits are any."""
    survey = B.Survey(words)
    if rnd.random() < 0.4:
        return with_word(words, len(words) - 8, rnd.randrange(8))
    for at in rnd.sample(range(8 * survey.pointer_block, 8 * survey.pointer_block + 8), 4):
        words = with_word(words, at, rnd.randrange(8))
    return words


# ---- Walks to a byte, which any board is lent to


WALKS = ['to a block', 'to a hole', 'to a block of a refused board', 'to a block off the board', 'of a file above 31', 'on fewer than 16 words',
         'by a null inode root', 'by a null inode pointer']


def walk_kinds(words, file, block):
    """Which of these a walk is that ends at the block, None for a hole."""
    kinds = {'to a block' if block else 'to a hole'}
    if block and B.check(words) != 0:
        kinds.add('to a block of a refused board')
    if block and 8 * block >= len(words):
        kinds.add('to a block off the board')
    if file > 31:
        return kinds | {'of a file above 31'}
    if len(words) < 16:
        return kinds | {'on fewer than 16 words'}
    pointers = words[len(words) // 8 * 8 - 8] // 8
    at = 8 * pointers + file // 4
    if pointers == 0:
        kinds.add('by a null inode root')
    elif at < len(words) and words[at] < 8:
        kinds.add('by a null inode pointer')
    return kinds


def walked_board(rnd, words):
    """A board for walks, most often none that is accepted, made from a sound one or of its length."""
    return rnd.choice([lambda: words, lambda: damaged(rnd, words), lambda: damaged(rnd, words, 3), lambda: null_inodes(rnd, words),
                       lambda: hostile(rnd, rnd.randrange(41)), lambda: hostile(rnd, len(words) + rnd.randrange(8))])()


def walked_byte(rnd, words, files):
    """A file, most often one of these, and a byte, on an accepted board more often below the size or next to it."""
    file = rnd.choice([rnd.choice(files)] * 9 + [rnd.randrange(32)] * 2 + [31, 32, rnd.randrange(41), 2**32, 2**64 - 1])
    size = B.size(words, file)
    return file, rnd.choice([0, 63, 64, rnd.randrange(512), rnd.randrange(40000), rnd.choice(SIZES), rnd.randrange(max(size, 0) + 70), max(size, 1) - 1,
                             max(size, 0), 2**27 - 1, 2**27, rnd.getrandbits(64), 2**64 - 1])
