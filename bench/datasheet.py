#!/usr/bin/env python3
"""The tables of docs/DATASHEET.md and its picture, from the CSV that target/bench/stores prints.

    datasheet.py tables SIZES     Markdown; SIZES is a file with what `size` printed of the archives
    datasheet.py picture          SVG
    datasheet.py formulas PAGE    nothing; fails where the page's formulas for t, u and v are not the reference model's
"""
import csv
import math
import os
import re
import sys

from picture import GROUND, INK, LINE, PALE, text

sys.path.insert(0, os.path.join(os.path.dirname(os.path.abspath(__file__)), os.pardir, 'tests', 'reference'))
import board  # noqa: E402


def read_parts():
    """Each part of the CSV, as a list of rows."""
    return [list(csv.DictReader(part.split('\n'))) for part in sys.stdin.read().strip().split('\n\n')]


def row(*cells):
    return '| %s |' % ' | '.join(cell if isinstance(cell, str) else format(cell, ',') for cell in cells)


def table(heads, rows):
    return [row(*heads), '|' + '---|' * len(heads), *rows, '']


# ---- Tables


def dearest(met):
    root = 'its tree' if int(met['block']) else 'its null root'
    return 'at %s of a file of size %s, %s of height %s' % (format(int(met['offset']), ','), format(int(met['size']), ','), root, met['height'])


def stores_table(writes):
    heads = ['Bytes written', 'At most, + 32', 'At most, + 2', 'Most met', 'By a write', 'Plans counted']
    return table(heads, [row(*(int(w[k]) for k in ('bytes', 'figure', 'sharp', 'most')), dearest(w), int(w['planned'])) for w in writes])


def past_table(writes):
    heads = ['Bytes written', 'Past the end, most met', 'Plans counted', 'Words of a plan, past the end or not, at most']
    met = [int(w['past']) if int(w['past_planned']) else 'none can be' for w in writes]
    return table(heads, [row(int(w['bytes']), most, int(w['past_planned']), 2 * int(w['figure'])) for w, most in zip(writes, met)])


def others_table(writes, lengths):
    most = max(int(w['barriers']) for w in writes)
    return table(['Change', 'Most met', 'Plans counted'], [
        row('Barriers of a write', most, sum(int(w['planned']) + int(w['past_planned']) for w in writes)),
        row('Stores of a length change', int(lengths['most']), int(lengths['lengths'])),
    ])


def visited_table(writes):
    return table(['Bytes read', 'Most blocks on their paths'], [row(int(w['bytes']), int(w['visited'])) for w in writes])


def limits_table(boards):
    heads = ['Board', 'Blocks', 'Words', 'Bytes', 'Free blocks after format', 'Most bytes of one file', 'Greatest size, holes included', 'Words of any plan, at most']
    return table(heads, [row(b['board'], *(int(b[k]) for k in ('blocks', 'words', 'bytes', 'free', 'held', 'greatest')), 2 * int(b['words'])) for b in boards])


def sizes_table(path):
    with open(path) as sizes:
        lines = [line.split() for line in sizes.read().strip().split('\n')[1:]]
    names = {'cabinet.o': '`libcabinet.a`', 'hosts.o': '`libhosts.a`', 'probes.o': '`libprobes.a`, for tests alone'}
    return table(['Archive', 'Bytes of code', 'Bytes of data'], [row(names[line[5]], int(line[0]), int(line[1]) + int(line[2])) for line in lines])


def tables(path):
    writes, [lengths], boards = read_parts()
    return [*stores_table(writes), *past_table(writes), *others_table(writes, lengths), *visited_table(writes), *limits_table(boards), *sizes_table(path)]


# ---- Formulas


def formulas(path):
    with open(path) as page:
        found = dict(re.findall(r'^    ([tuv]) = (.*?)  ', page.read(), re.M))
    for length in range(1, MOST_BYTES + 1):
        values = {'L': length}
        for name in 'tuv':
            values[name] = eval(found[name].replace('/', '//'), {}, values)
        assert values['t'] + values['u'] + values['v'] + 5 == board.most_blocks(length), (path, length)
    return []


# ---- Picture: bytes to the right, stores upward, both by doubling

LEFT, TOP, WIDTH, HEIGHT = 90, 84, 760, 430
FIGURE, SHARP, MET, DATA = '#d08a2e', '#1f5f8b', '#22262a', '#9a9fa5'
MOST_BYTES, LEAST_STORES, MOST_STORES = 32768, 1, 8192


def across(length):
    return LEFT + WIDTH * math.log(length) / math.log(MOST_BYTES)


def upward(stores):
    return TOP + HEIGHT - HEIGHT * math.log(stores / LEAST_STORES) / math.log(MOST_STORES / LEAST_STORES)


def line(points, colour, style=''):
    return '<polyline points="%s" fill="none" stroke="%s" stroke-width="2"%s/>' % (' '.join('%.1f,%.1f' % point for point in points), colour, style)


def steps(most, last):
    """Level up to the first length that costs more, for every length up to the last."""
    costs = [most(length) for length in range(1, last + 1)]
    found = [(across(1), upward(costs[0]))]
    for i in range(1, last):
        if costs[i] != costs[i - 1]:
            found += [(across(i + 1), upward(costs[i - 1])), (across(i + 1), upward(costs[i]))]
    return found + [(across(last), upward(costs[-1]))]


def words(length):
    return (length + 7) // 8


def grid():
    for length in [1, 8, 64, 512, 4096, 32768]:
        x = across(length)
        yield '<line x1="%.1f" y1="%d" x2="%.1f" y2="%d" stroke="%s"/>' % (x, TOP, x, TOP + HEIGHT, LINE)
        yield text(round(x, 1), TOP + HEIGHT + 18, format(length, ','), 12, 'middle', PALE)
    for stores in [1, 8, 64, 512, 4096]:
        y = upward(stores)
        yield '<line x1="%d" y1="%.1f" x2="%d" y2="%.1f" stroke="%s"/>' % (LEFT, y, LEFT + WIDTH, y, LINE)
        yield text(LEFT - 8, round(y + 4, 1), format(stores, ','), 12, 'end', PALE)


def legend():
    x = LEFT
    for said, colour in [('8 × (t + u + v + 5) + 32', FIGURE), ('+ 2', SHARP), ('most met', MET), ('words of the bytes alone', DATA)]:
        yield '<rect x="%g" y="52" width="12" height="12" fill="%s"/>' % (x, colour)
        yield text(x + 18, 62.5, said)
        x += 50 + 7.5 * len(said)


def label(x, y, length, stores):
    """Under the lines while they are level, left of them where they rise."""
    if length <= 512:
        return text(x, y + 20, stores, 12, 'middle' if length > 1 else 'start', INK)
    return text(x - 12, y - 8, stores, 12, 'end', INK)


def picture():
    writes, _, _ = read_parts()
    width, height = LEFT + WIDTH + 40, TOP + HEIGHT + 62
    yield '<svg xmlns="http://www.w3.org/2000/svg" width="%d" height="%d"' % (width, height)
    yield '     viewBox="0 0 %d %d" font-family="DejaVu Sans, Verdana, Arial, sans-serif">' % (width, height)
    yield '<rect width="%d" height="%d" fill="%s"/>' % (width, height, GROUND)
    yield text(24, 32, 'Stores that a write costs at most, by its bytes', 18, weight='bold')
    yield from legend()
    yield from grid()
    yield line(steps(words, 64) + [(across(MOST_BYTES), upward(words(MOST_BYTES)))], DATA, ' stroke-dasharray="4 3"')
    yield line(steps(board.most_stores, MOST_BYTES), FIGURE)
    yield line(steps(board.sharp_most_stores, MOST_BYTES), SHARP)
    for met in writes:
        x, y = across(int(met['bytes'])), upward(int(met['most']))
        yield '<circle cx="%.1f" cy="%.1f" r="4.5" fill="%s"/>' % (x, y, MET)
        yield label(round(x, 1), round(y, 1), int(met['bytes']), format(int(met['most']), ','))
    yield text(LEFT + WIDTH / 2, TOP + HEIGHT + 42, 'bytes written, from an offset that does not lie past the size', 12, 'middle', PALE)
    yield text(24, TOP - 8, 'stores', 12, fill=PALE)
    yield '</svg>'


if __name__ == '__main__':
    said = {'tables': lambda: tables(sys.argv[2]), 'formulas': lambda: formulas(sys.argv[2]), 'picture': picture}
    print('\n'.join(said[sys.argv[1]]()))
