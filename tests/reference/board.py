"""A model of the cabinet memory board in Python, from document 01 and N1, N3, N4, N6, N11 and N12 of document 02 (docs/DECISIONS.md says
how far apart from the definitions).

It surveys a board into dictionaries and plans with explicit loops, where the definitions in crates/model recurse, so that an error is
not likely to be made twice. Answers are numbers, a refusal r is -r. vectors.py holds the definitions against it.
"""
import typing

BARRIER = 2**64 - 1


class Layout(typing.NamedTuple):
    """The figures in which boards differ. A pointer is the width times its block; a root has its height added."""
    width: int    # words in a block
    leaves: int   # of inodes, one to each inode pointer
    inodes: int   # in a leaf
    mark: int     # trailer word 3
    blocks: int   # at most; at least there are 16
    most: int     # bytes in a file
    tallest: int  # height of a tree
    span: list    # bytes under a tree, by its height
    bands: list   # which height suffices: first size, last size, height

    def trailer(self, count):
        """The trailer's words from word 1 on, on a board of count blocks."""
        return [512, count, self.mark] + [0] * (self.width - 4)


# Document 01's boards. The four bands are as the bench sheet prints them (N4), not made from the spans.
HOUSE = Layout(width=8, leaves=8, inodes=4, mark=1, blocks=1024, most=32768, tallest=3, span=[64, 512, 4096, 32768], bands=[
    (0, 64, 0),
    (65, 512, 1),
    (513, 4096, 2),
    (4097, 32768, 3),
])
# Boards with the published block (N11).
PUBLISHED = Layout(width=512, leaves=1, inodes=32, mark=3, blocks=512, most=2097152, tallest=1, span=[4096, 2097152], bands=[
    (0, 4096, 0),
    (4097, 2097152, 1),
])


class Refused(Exception):
    def __init__(self, number):
        super().__init__(number)
        self.number = number


def bytes_of(word):
    return [(word >> (8 * i)) & 255 for i in range(8)]


def word_of(values):
    return int.from_bytes(values, 'little')


def words_of(image):
    return [word_of(image[i:i + 8]) for i in range(0, len(image), 8)]


# ---- Reading a board


def word_count(board, layout):
    if not 16 * layout.width <= len(board) <= layout.blocks * layout.width or len(board) % layout.width:
        raise Refused(1)


class Survey:
    """What can be reached on an accepted board.

    blocks: the live blocks, each with what it is: ('pointers',), ('leaf', l), ('node', file, first byte, height), ('data', file, first byte)
    cells: the address of each root and file pointer in a live block, with (file, first byte, live)
    """

    def __init__(self, board, layout=HOUSE):
        word_count(board, layout)
        self.board, self.layout, self.width = board, layout, layout.width
        self.count = len(board) // self.width
        trailer = self.words(self.count - 1)
        root = trailer[0]
        if trailer[1:] != layout.trailer(self.count) or root % self.width != 1 or not self.inside(root // self.width):
            raise Refused(2)
        self.blocks, self.cells, self.size, self.leaves = {}, {}, {}, []
        self.pointer_block = root // self.width
        self.survey_leaves()
        for file in range(32):
            self.survey_file(file)
        self.free = [k for k in range(1, self.count - 1) if k not in self.blocks]

    def words(self, block):
        return list(self.board[self.width * block:self.width * (block + 1)])

    def inside(self, block):
        return 1 <= block <= self.count - 2

    def reach(self, block, what):
        if block in self.blocks:
            raise Refused(3)
        self.blocks[block] = what

    def inode(self, file):
        return self.width * self.leaves[file // self.layout.inodes] + 2 * (file % self.layout.inodes)

    def survey_leaves(self):
        self.reach(self.pointer_block, ('pointers',))
        pointers = self.words(self.pointer_block)
        for leaf, word in enumerate(pointers[:self.layout.leaves]):
            if word % self.width or not self.inside(word // self.width):
                raise Refused(3)
            self.reach(word // self.width, ('leaf', leaf))
            self.leaves.append(word // self.width)
        if any(pointers[self.layout.leaves:]):
            raise Refused(3)

    def survey_file(self, file):
        at, width = self.inode(file), self.width
        root, size = self.board[at], self.board[at + 1]
        if size > self.layout.most:
            raise Refused(3)
        self.size[file] = size
        self.cells[at] = (file, 0, size > 0)
        if size == 0:
            return
        if root % width > self.layout.tallest:
            raise Refused(3)
        todo = [(root // width, root % width, 0)]
        while todo:
            block, height, base = todo.pop()
            if block == 0:
                continue
            if not self.inside(block):
                raise Refused(3)
            if height == 0:
                self.reach(block, ('data', file, base))
                continue
            self.reach(block, ('node', file, base, height))
            for j in range(width):
                start = base + j * self.layout.span[height - 1]
                self.cells[width * block + j] = (file, start, start < size)
                if start < size:
                    word = self.board[width * block + j]
                    if word % width:
                        raise Refused(3)
                    todo.append((word // width, height - 1, start))

    def data(self, file):
        return {what[2]: block for block, what in self.blocks.items() if what[:2] == ('data', file)}

    def held(self, file):
        """The live blocks of the file, pointer blocks and data blocks."""
        return [block for block, what in self.blocks.items() if what[0] in ('node', 'data') and what[1] == file]

    def visited(self, file, first, count):
        """How many blocks are visited by one walk "for each 64-byte stretch from a multiple of 64" with one of the bytes in it (N6).

        The walk to a byte visits the file's live blocks with that byte in their span, so this goes by blocks and makes no walks."""
        starts = {i - i % 64 for i in range(first, first + count)}
        total = 0
        for block in self.held(file):
            what = self.blocks[block]
            base, height = what[2], what[3] if what[0] == 'node' else 0
            total += len(starts.intersection(range(base, base + self.layout.span[height], 64)))
        return total

    def contents(self, file):
        out = [0] * self.size[file]
        for base, block in self.data(file).items():
            held = [x for word in self.words(block) for x in bytes_of(word)]
            for i in range(len(held)):
                if base + i < len(out):
                    out[base + i] = held[i]
        return out


def of_file(board, file, layout):
    survey = Survey(board, layout)
    if file > 31:
        raise Refused(4)
    return survey


def answer(call):
    try:
        return call()
    except Refused as refused:
        return -refused.number


def check(board, layout=HOUSE):
    return answer(lambda: Survey(board, layout) and 0)


def free_count(board, layout=HOUSE):
    return answer(lambda: len(Survey(board, layout).free))


def size(board, file, layout=HOUSE):
    return answer(lambda: of_file(board, file, layout).size[file])


def contents(board, file, layout=HOUSE):
    return of_file(board, file, layout).contents(file)


def read(board, file, offset, out, layout=HOUSE):
    """The answer and the buffer at exit."""
    try:
        got = contents(board, file, layout)[offset:offset + len(out)]
    except Refused as refused:
        return -refused.number, list(out)
    return len(got), got + list(out[len(got):])


def visits(board, file, i, layout=HOUSE):
    """The blocks that the walk to byte i visits, in order, each with its height. On any board, which is not surveyed: of a null block, and of a
    block or a word off the board, all words are 0, and so is the trailer of a board that has no block but block 0."""
    width, inodes = layout.width, layout.inodes

    def word(block, j):
        at = width * block + j
        return board[at] if block > 0 and at < len(board) else 0
    if file > 31:
        return []
    leaf = word(word(len(board) // width - 1, 0) // width, file // inodes) // width
    root, below = word(leaf, file % inodes * 2), word(leaf, file % inodes * 2 + 1)
    block, height = root // width, root % width
    if i >= 8 * width * width**height:
        return []
    out = []
    # `below` counts the bytes of the span that lie below the size, none where the pointer is not live.
    while block and below > 0:
        out.append((block, height))
        if height == 0:
            break
        under = 8 * width**height
        block, below = word(block, i // under) // width, below - i // under * under
        i, height = i % under, height - 1
    return out


def walk(board, file, i, layout=HOUSE):
    """The block where the walk to byte i ends, None in a hole. On any board."""
    ends = [block for block, height in visits(board, file, i, layout) if height == 0]
    return ends[0] if ends else None


def walk_visited(board, file, i):
    """Where the walk to byte i ends, and "how many blocks it visited, the data block included and a hole not counted" (N6). On any house board."""
    return walk(board, file, i), len(visits(board, file, i))


def read_visited(board, file, offset, out):
    """The answer, the buffer at exit and how many blocks were visited, 0 if refused (N6)."""
    answered, left = read(board, file, offset, out)
    return answered, left, Survey(board).visited(file, offset, answered) if answered >= 0 else 0


def hidden(board, at, value, layout=HOUSE):
    survey = Survey(board, layout)
    block = at // layout.width
    what = survey.blocks.get(block)
    if block in survey.free:
        return True
    if what and what[0] == 'data':
        first = what[2] + 8 * (at % layout.width)
        below = survey.size[what[1]] - first
        return bytes_of(board[at])[:max(0, below)] == bytes_of(value)[:max(0, below)]
    return at in survey.cells and not survey.cells[at][2]


# ---- Reading an image


def decoded(image):
    if len(image) > 65536 or len(image) % 8:
        raise Refused(1)
    return words_of(image)


def image_check(image):
    return answer(lambda: check(decoded(image)))


def image_size(image, file):
    return answer(lambda: size(decoded(image), file))


def image_read(image, file, offset, out):
    """The answer and the buffer at exit."""
    try:
        return read(decoded(image), file, offset, out)
    except Refused as refused:
        return -refused.number, list(out)


def listing(image):
    """What the lister prints."""
    try:
        survey = Survey(decoded(image))
    except Refused as refused:
        return 'refused %d\n' % refused.number
    lines = ['blocks %d free %d\n' % (survey.count, len(survey.free))]
    for file in range(32):
        if survey.size[file]:
            height = survey.board[survey.inode(file)] % survey.width
            lines.append('file %d size %d height %d held %d\n' % (file, survey.size[file], height, len(survey.held(file))))
    return ''.join(lines)


# ---- Planning


def least(end, layout=HOUSE):
    """The height of the one band with the end in it; with no such band, or two, the unpacking raises."""
    [height] = [height for first, last, height in layout.bands if first <= end <= last]
    return height


class Write:
    """The plan of one write: its pairs, how many fresh blocks it lacks, and the name of the way it went."""

    def __init__(self, survey, file, offset, new):
        self.survey, self.file, self.offset, self.new = survey, file, offset, new
        self.layout, self.width, self.span = survey.layout, survey.width, survey.layout.span
        self.size, self.end = survey.size[file], offset + len(new)
        self.root_at = survey.inode(file)
        self.pool, self.lacking = list(survey.free), 0
        self.grown = {}
        self.epochs = [[]]
        self.past = offset > self.size
        prefix = 'past ' if self.past else ''
        self.way = prefix + 'empty'
        if new:
            self.way = self.grow() + prefix + self.place()

    def pairs(self):
        out = []
        for i, epoch in enumerate(self.epochs):
            out += ([(BARRIER, 0)] if i else []) + epoch
        return out

    def at(self, address):
        return self.grown.get(address, self.survey.board[address] if address < len(self.survey.board) else 0)

    def put(self, address, value):
        self.epochs[-1].append((address, value))

    def barrier(self):
        self.epochs.append([])

    def take(self, words):
        """The lowest free block, filled."""
        if not self.pool:
            self.lacking += 1
        block = self.pool.pop(0) if self.pool else 10**6 + self.lacking
        for j in range(self.width):
            self.put(self.width * block + j, words[j])
        return block

    def grow(self):
        width = self.width
        block, height = divmod(self.at(self.root_at), width)
        if self.size == 0 or self.end <= self.span[height]:
            return ''
        to = least(self.end, self.layout)
        if block:
            for _ in range(to - height):
                words = [width * block] + [0] * (width - 1)
                block = self.take(words)
                for j in range(width):
                    self.grown[width * block + j] = words[j]
            self.barrier()
        self.put(self.root_at, width * block + to)
        self.grown[self.root_at] = width * block + to
        self.barrier()
        return ('grow%d ' if block else 'null%d ') % (to - height)

    def path(self):
        """The live pointers on the path to the offset, from the root: address, block, height, first byte."""
        out = []
        address, start = self.root_at, 0
        height = self.at(address) % self.width
        while start < self.size:
            block = self.at(address) // self.width
            out.append((address, block, height, start))
            if block == 0 or height == 0:
                break
            j = (self.offset - start) // self.span[height - 1]
            address, height, start = self.width * block + j, height - 1, start + j * self.span[height - 1]
        return out

    def written(self, start, height):
        """Whether a new byte lies in the span."""
        return start < self.end and self.offset < start + self.span[height]

    def copied(self, block, height, start):
        """Whether `block` exists, the offset is past the end and byte s - 1 lies in the span."""
        return block != 0 and self.past and start < self.size <= start + self.span[height]

    def fresh(self, block, height, start):
        """A fresh tree for what is visible at `block`, 0 if nothing is, with the new bytes in it.

        Past the end the blocks on the path to byte s - 1 are fresh too."""
        width = self.width
        if height == 0:
            held = [0] * self.span[0]
            for i in range(self.span[0]):
                x = start + i
                if self.offset <= x < self.end:
                    held[i] = self.new[x - self.offset]
                elif x < self.size and block:
                    held[i] = bytes_of(self.at(width * block + i // 8))[i % 8]
            return self.take([word_of(held[8 * j:8 * j + 8]) for j in range(width)])
        words = []
        for j in range(width):
            child = start + j * self.span[height - 1]
            old = self.at(width * block + j) if block and child < self.size else 0
            renewed = self.written(child, height - 1) or self.copied(old // width, height - 1, child)
            words.append(width * self.fresh(old // width, height - 1, child) if renewed else old)
        return self.take(words)

    def place(self):
        path = self.path()
        home = path[-1] if path and path[-1][1] and path[-1][2] == 0 else None
        if self.end <= self.size and self.offset // 8 == (self.end - 1) // 8 and home:
            return self.single_word(home)
        if self.size == 0 or self.offset == self.size and all(block for _, block, _, _ in path):
            return self.tail(path, home)
        if self.end <= self.size:
            return self.inside()
        return self.with_length()

    def single_word(self, home):
        address = self.width * home[1] + (self.offset - home[3]) // 8
        held = bytes_of(self.at(address))
        for i, x in enumerate(self.new):
            held[(self.offset + i) % 8] = x
        self.put(address, word_of(held))
        return 'single word'

    def tail(self, path, home):
        others, width = [], self.width
        if self.size == 0:
            height = least(self.end, self.layout)
            others.append((0, self.root_at, width * self.fresh(0, height, 0) + height))
        elif home:
            for j in range(width):
                first = home[3] + 8 * j
                if self.offset < first + 8 and first < self.end:
                    held = bytes_of(self.at(width * home[1] + j))
                    for i in range(8):
                        if first + i >= self.offset:
                            held[i] = self.new[first + i - self.offset] if first + i < self.end else 0
                    others.append((first, width * home[1] + j, word_of(held)))
        dead = []
        for _, block, height, start in path:
            for j in range(width if height else 0):
                child = start + j * self.span[height - 1]
                if self.size <= child < self.end:
                    dead.append((child, width * block + j, height - 1))
        for child, address, height in sorted(dead):
            others.append((child, address, width * self.fresh(0, height, child)))
        for _, address, value in sorted(others):
            self.put(address, value)
        self.barrier()
        self.put(self.root_at + 1, self.end)
        return 'tail' if self.size else 'empty tail'

    def inside(self):
        address, start, width = self.root_at, 0, self.width
        word = self.at(address)
        height = low = word % width
        while word // width and height:
            under = self.span[height - 1]
            j = (self.offset - start) // under
            if (self.end - 1 - start) // under != j:
                break
            address, start, height, low = width * (word // width) + j, start + j * under, height - 1, 0
            word = self.at(address)
        block = self.fresh(word // width, height, start)
        self.barrier()
        self.put(address, width * block + low)
        return 'inside at %s over height %d' % ('root' if address == self.root_at else 'pointer', height)

    def with_length(self):
        width = self.width
        old, height = divmod(self.at(self.root_at), width)
        block = self.fresh(old, height, 0)
        number, place = divmod(self.file, self.layout.inodes)
        leaf = self.survey.words(self.survey.leaves[number])
        leaf[2 * place:2 * place + 2] = [width * block + height, self.end]
        copy = self.take(leaf)
        self.barrier()
        self.put(width * self.survey.pointer_block + number, width * copy)
        return 'with length, height %d' % height


def length_pairs(survey, file, length):
    old, board, at, width = survey.size[file], survey.board, survey.inode(file), survey.width
    if length == old:
        return []
    if length < old:
        return [(at + 1, length)]
    first = [(0, at, 0)] if old == 0 else []
    for block, what in survey.blocks.items():
        if old and what[:2] == ('data', file) and what[2] <= old - 1 < what[2] + survey.layout.span[0]:
            for j in range(width):
                start = what[2] + 8 * j
                if old < start + 8 and start < length:
                    held = [x if start + i < old else 0 for i, x in enumerate(bytes_of(board[width * block + j]))]
                    first.append((start, width * block + j, word_of(held)))
        if old and what[:2] == ('node', file):
            for j in range(width):
                start = survey.cells[width * block + j][1]
                if old <= start < length:
                    first.append((start, width * block + j, 0))
    out = [(address, value) for _, address, value in sorted(first)]
    return out + ([(BARRIER, 0)] if out else []) + [(at + 1, length)]


def format_pairs(count, layout):
    width, trailer = layout.width, layout.width * (count - 1)
    pointers = [width * (2 + leaf) for leaf in range(layout.leaves)]
    out = [(trailer, 0), (BARRIER, 0)]
    out += enumerate(pointers + [0] * (width * (1 + layout.leaves) - len(pointers)), width)  # block 1, then the leaves
    out += enumerate(layout.trailer(count), trailer + 1)
    return out + [(BARRIER, 0), (trailer, width + 1)]


def planned(pairs, plan):
    """The answer and the plan slice at exit."""
    try:
        laid = [x for pair in pairs() for x in pair]
        if len(laid) > len(plan):
            raise Refused(8)
    except Refused as refused:
        return -refused.number, list(plan)
    return len(laid) // 2, laid + list(plan[len(laid):])


def plan_write(board, file, offset, new, layout=HOUSE):
    survey = of_file(board, file, layout)
    if offset + len(new) > layout.most:
        raise Refused(6)
    plan = Write(survey, file, offset, new)
    if plan.lacking:
        raise Refused(7)
    return plan


def write(board, file, offset, new, plan, layout=HOUSE):
    return planned(lambda: plan_write(board, file, offset, new, layout).pairs(), plan)


def write_visited(board, file, offset, new, plan):
    """The answer, the plan slice at exit and how many blocks were visited on the board before the call, 0 if refused (N6)."""
    answered, left = write(board, file, offset, new, plan)
    return answered, left, Survey(board).visited(file, offset, len(new)) if answered >= 0 else 0


def set_length(board, file, length, plan, layout=HOUSE):
    def pairs():
        survey = of_file(board, file, layout)
        if length > layout.most:
            raise Refused(6)
        return length_pairs(survey, file, length)
    return planned(pairs, plan)


def format_board(board, plan, layout=HOUSE):
    def pairs():
        word_count(board, layout)
        return format_pairs(len(board) // layout.width, layout)
    return planned(pairs, plan)


def perform(board, plan, pairs, layout=HOUSE):
    """The answer and the board at exit."""
    try:
        word_count(board, layout)
        if 2 * pairs > len(plan):
            raise Refused(9)
        out = list(board)
        for i in range(pairs):
            address = plan[2 * i]
            if address >= len(board) and address != BARRIER:
                raise Refused(10)
            if address != BARRIER:
                out[address] = plan[2 * i + 1]
    except Refused as refused:
        return -refused.number, list(board)
    return pairs, out


# ---- Counting a write's stores (N12)


def store_count(pairs):
    """How many stores are among the pairs, "barriers not counted"."""
    return sum(address != BARRIER for address, _ in pairs)


def most_blocks(length):
    """The most blocks, t + u + v + 5, for "a base-layout write of L bytes, L at least 1 and the offset not past the size"."""
    t = (length + 62) // 64 + 1
    u = (t + 6) // 8 + 1
    v = (u + 6) // 8 + 1
    return t + u + v + 5


def most_stores(length):
    """The figure on the data sheet: "its plan has at most" 8 * (t + u + v + 5) + 32 "stores, barriers not counted"."""
    return 8 * most_blocks(length) + 32


def sharp_most_stores(length):
    """A sharper figure than the request's: at most eight stores to each block, "the root word" of growth and "the commit"."""
    return 8 * most_blocks(length) + 2
