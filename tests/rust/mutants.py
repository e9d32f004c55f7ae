#!/usr/bin/env python3
"""Shows that the differential test finds faults: each edit below makes docs/src wrong in one point, and the test must fail on it. On
docs/src as it is, built in the same way, the test must pass.

    mutants.py [CALLS]    at most so many calls for each edit (default 300,000), a tenth on published boards; tests/rust/run.sh has built
                          what is needed
"""
import concurrent.futures
import os
import re
import shutil
import subprocess
import sys

ROOT = os.path.dirname(os.path.dirname(os.path.dirname(os.path.abspath(__file__))))
BUILT = os.path.join(ROOT, 'target', 'rust')
FLAGS = ['--edition', '2021', '-C', 'opt-level=1', '-A', 'warnings', '-L', 'native=' + os.path.join(ROOT, 'target', 'staticlib')]

# What is wrong, the file, the text there and what stands for it.
UNCHANGED = ('as it is', 'lib', '', '')

# Found on the house's boards alone.
HOUSE = [
    ('120 words are enough', 'board', 'blocks: 16..=1_024', 'blocks: 15..=1_024'),
    ('low bits of a file pointer', 'board', 'board.layout.low_of(word(board, tree.block, index)) != 0', 'board.layout.low_of(word(board, tree.block, index)) % 4 != 0'),
    ('low bits of an inode pointer', 'board', 'board.layout.low_of(pointer) != 0', 'board.layout.low_of(pointer) % 2 != 0'),
    ('growth to the height of the size', 'plan', 'let height = layout.least_height(end);', 'let height = layout.least_height(end.max(inode.size));'),
    ('bands: 65 bytes at height 0', 'board', 'end <= self.span(height)', 'end <= self.span(height) + u64::from(height == 0)'),
    ('bands: 513 bytes at height 1', 'board', 'end <= self.span(height)', 'end <= self.span(height) + u64::from(height == 1)'),
    ('bands: 4,097 bytes at height 2', 'board', 'end <= self.span(height)', 'end <= self.span(height) + u64::from(height == 2)'),
    ('bands: 4,096 bytes at height 3', 'board', 'end <= self.span(height)', 'end <= self.span(height) - u64::from(height == 2)'),
    ('walk: block 0 read for a null leaf', 'board', 'root: word(board, leaf, index),\n        size: word(board, leaf, index + 1),', 'root: board.words.get(layout.address(leaf, index) as usize).copied().unwrap_or(0),\n        size: board.words.get(layout.address(leaf, index + 1) as usize).copied().unwrap_or(0),'),
    ('walk: block 0 read for a null inode root', 'board', 'layout.block_of(word(board, pointer_block, pointer_index))', 'layout.block_of(board.words.get(layout.address(pointer_block, pointer_index) as usize).copied().unwrap_or(0))'),
    ('walk: the trailer is the last eight words', 'board', 'board.layout.block_of(word(board, block_count(board).saturating_sub(1), 0))', 'board.words.len().checked_sub(8).map_or(0, |at| board.words[at] / 8)'),
    ('walk: a file above 31 taken modulo 32', 'calls', 'if file < FILES {\n        board::walk(board, inode(board, file), byte)', 'if true {\n        board::walk(board, inode(board, file % FILES), byte)'),
    ('walk: the root of an empty file followed', 'board', 'if inode.size == 0 || byte >=', 'if byte >='),
    ('walk: a block off the board is a hole', 'board', 'if tree.block == 0 {\n        Place::Hole', 'if tree.block == 0 || tree.block >= block_count(board) {\n        Place::Hole'),
    ('half words of an image', 'lister', 'image.len() % 8 != 0 || ', ''),
    ('a line for an empty file', 'lister', 'if inode.size == 0 {', 'if inode.size == 0 && file > 0 {'),
    ('held: data blocks alone', 'lister', 'held_count(board, inode)', '(0..inode.size).step_by(64).filter(|&byte| matches!(crate::board::walk(board, inode, byte), crate::board::Place::Block(_))).count()'),
    ('held: a null root counted', 'board', 'let reached = reach_file(', 'held[0] = inode.root / 8 == 0;\n    let reached = reach_file('),
    ('held: a pointer past the size followed', 'board', 'reach_file(board, &mut held, inode)', 'reach_file(board, &mut held, Inode { size: inode.tree().end().min(board.layout.greatest_size), ..inode })'),
    ('held: the highest pointer block left out', 'lister', 'held_count(board, inode)', 'held_count(board, inode).saturating_sub(inode.tree().height.min(1))'),
    ('stores: t without its + 1', 'costs', '(length + 62) / 64 + 1', '(length + 62) / 64'),
    ('stores: u without its + 1', 'costs', '(t + 6) / 8 + 1', '(t + 6) / 8'),
    ('stores: v without its + 1', 'costs', '(u + 6) / 8 + 1', '(u + 6) / 8'),
    ("stores: two bytes don't reach a second block", 'costs', '(length + 62)', '(length + 61)'),
    ('stores: one block fewer', 'costs', '8 * (t + u + v + 5)', '8 * (t + u + v + 4)'),
    ('stores: growth left out', 'costs', '8 * (t + u + v + 5)', '8 * (t + u + v + 2)'),
    ('stores: one commit fewer', 'costs', 'block_stores(length) + 2', 'block_stores(length) + 1'),
    ('stores: one commit more', 'costs', 'block_stores(length) + 2', 'block_stores(length) + 3'),
    ('stores: 40 in place of 32', 'costs', 'block_stores(length) + 32', 'block_stores(length) + 40'),
    ('stores: barriers counted', 'costs', '.filter(|pair| pair[0] != BARRIER)', '.filter(|_| true)'),
    ('stores: pairs past the plan counted', 'costs', '.take(pairs as usize)', ''),
]

# Found on the house's boards and on published ones.
BOTH = [
    ('trailer words from 4 on are not looked at', 'board', 'trailer[1..] == trailer_rest(board)', 'trailer[1..4] == trailer_rest(board)[..3]'),
    ('a null root that is one height too tall', 'board', 'inode.tree().height > board.layout.greatest_height', 'inode.tree().height > board.layout.greatest_height && inode.tree().block != 0'),
    ('a size one above the greatest', 'board', 'inode.size > board.layout.greatest_size', 'inode.size > board.layout.greatest_size + 1'),
    ('a size that fills a tree gets the next height', 'board', 'end <= self.span(height)', 'end < self.span(height)'),
    ('an end at the greatest size refused', 'calls', 'end <= layout.greatest_size), 6', 'end < layout.greatest_size), 6'),
    ('file 32', 'calls', 'file < FILES, 4', 'file <= FILES, 4'),
    ('the trailer may be pointed to', 'board', 'block <= block_count(board) - 2', 'block <= block_count(board) - 1'),
    ('blocks reached twice', 'board', ' || live[block as usize]', ''),
    ('a pointer at the size is live', 'board', 'self.block != 0 && start < size', 'self.block != 0 && start <= size'),
    ('blocks past a shortened end are used', 'board', '(0..board.layout.block_words).filter(|&index| tree.first(index) < size)', '0..board.layout.block_words'),
    ('the highest free block first', 'plan', 'free: free_blocks(board).into_iter()', 'free: free_blocks(board).into_iter().rev().collect::<Vec<_>>().into_iter()'),
    ('a word that is stored alone loses what is past the size', 'plan', '.unwrap_or(byte(self.board, block, position))', '.unwrap_or(self.visible(block, position))'),
    ('a fresh block is hooked to a live hole', 'plan', 'return false;', 'return true;'),
    ('stale bytes past the end', 'plan', 'block != 0 && position < self.inode.size', 'block != 0'),
    ('the commit one level too high', 'plan', 'tree.block != 0 && tree.height > 0 && tree.index_over', 'tree.block != 0 && tree.height > 1 && tree.index_over'),
    ('the root loses its height', 'plan', 'let mut low = tree.height;', 'let mut low = 0;'),
    ('the leaf copy has the old size', 'plan', 'copy[self.inode.index as usize + 1] = self.end;', ''),
    ('bytes across two words taken for one', 'plan', 'self.end > first + WORD_BYTES', 'self.end > first + 16'),
    ('a length by the size alone', 'plan', 'if length > inode.size {', 'if false {'),
    ('the word that holds the size is not cleared', 'plan', 'first < length && size < first + WORD_BYTES', 'first < length && size <= first'),
    ('one pointer too many is cleared', 'plan', '} else if first < length {', '} else if first <= length {'),
    ('past the end: the path to byte s - 1 is not made fresh', 'plan', ' || self.on_path_to_old_end(old)', ''),
    ('past the end: the path to byte s in place of s - 1', 'plan', 'size <= old.end()', 'size < old.end()'),
    ('past the end: a full data block is not copied', 'plan', 'size <= old.end()', 'size <= old.end() && (old.height > 0 || size % self.board.layout.block_bytes() != 0)'),
    ('past the end: a null on the path gets a fresh block', 'plan', 'self.offset > size && old.block != 0', 'self.offset > size'),
    ('past the end: stale bytes between s and o', 'plan', 'position < self.inode.size', 'position < self.inode.size.max(self.offset)'),
    ('past the end: a stale pointer between s and o is copied', 'plan', '} else { below.block }', '} else if old.block != 0 && below.start < self.offset { self.board.layout.block_of(crate::board::word(self.board, old.block, index)) } else { below.block }'),
    ('past the end: a write of no bytes pads', 'plan', 'if bytes.is_empty() {', 'if bytes.is_empty() && offset <= inode(board, file).size {'),
    ('past the end: no bytes above the greatest size accepted', 'calls', 'end.is_some_and(', 'bytes.is_empty() || end.is_some_and('),
    ('past the end: the tail way where its path is whole', 'plan', 'self.offset == self.inode.size &&', 'self.offset >= self.inode.size &&'),
    ('past the end: shadow with length at size 0', 'plan', 'if self.goes_tail_way() {', 'if self.inode.size == 0 && self.offset > 0 {\n            return Write { inode: Inode { root: self.board.layout.least_height(self.end), ..self.inode }, ..*self }.shadow_with_length();\n        }\n        if self.goes_tail_way() {'),
    ('past the end: blocks before the offset at size 0', 'plan', 'self.touches(old.start, old.end()) ||', 'self.touches(old.start, old.end()) || self.inode.size == 0 && old.start < self.end ||'),
    ('an offset past the size refused 5', 'calls', 'demand_file(board, file)?;\n    let end', 'demand(offset <= demand_file(board, file)?.size, 5)?;\n    let end'),
    ('a plan slice of just the length refused', 'calls', 'slice.len() >= 2 * pairs.len()', 'slice.len() > 2 * pairs.len()'),
    ('twice the pairs overflows', 'calls', 'pairs <= plan.len() as u64 / 2', 'pairs.wrapping_mul(2) <= plan.len() as u64'),
    ('a barrier known by both words', 'calls', '|| pair[0] == BARRIER', '|| pair == [BARRIER, 0]'),
]

# Found on published boards alone.
PUBLISHED = [
    ('15 blocks are enough', 'board', 'blocks: 16..=512', 'blocks: 15..=512'),
    ('513 blocks', 'board', 'blocks: 16..=512', 'blocks: 16..=513'),
    ('words that are no whole blocks', 'board', 'board.words.len() as u64 % board.layout.block_words == 0 && ', ''),
    ("perform by the house's word count", 'calls', 'word_count_fits(Board { layout, words }), 1)', 'word_count_fits(Board { layout: &HOUSE, words }), 1)'),
    ('trailer word 3 is 1', 'board', 'mark: 3', 'mark: 1'),
    ('trailer words from 8 on are not looked at', 'board', 'trailer[1..] == trailer_rest(board)', 'trailer[1..8] == trailer_rest(board)[..7]'),
    ('trailer word 511 is not looked at', 'board', 'trailer[1..] == trailer_rest(board)', 'trailer[1..511] == trailer_rest(board)[..510]'),
    ('spare inode pointers are not looked at', 'board', 'spare.iter().any(|&pointer| pointer != 0)', 'false'),
    ('spare inode pointers by their blocks alone', 'board', 'spare.iter().any(|&pointer| pointer != 0)', 'spare.iter().any(|&pointer| board.layout.block_of(pointer) != 0)'),
    ('the first spare inode pointer is not looked at', 'board', 'spare.iter()', 'spare[1..].iter()'),
    ('the last spare inode pointer is not looked at', 'board', 'spare.iter()', 'spare[..510].iter()'),
    ('eight inode leaves', 'board', 'leaves: 1', 'leaves: 8'),
    ('leaf words from 64 on must be 0', 'board', 'if board.layout.low_of(pointer) != 0 {', 'if board.layout.low_of(pointer) != 0 || words(board, board.layout.block_of(pointer))[64..].iter().any(|&word| word != 0) {'),
    ('leaf words from 64 on are not copied', 'plan', 'let mut copy = words(self.board, self.inode.leaf);', 'let mut copy = words(self.board, self.inode.leaf);\n        copy[64..].fill(0);'),
    ('a root of height 2', 'board', 'inode.tree().height > board.layout.greatest_height', 'inode.tree().height > 2'),
    ('low bits modulo 8', 'board', 'pointer % self.block_words', 'pointer % 8'),
    ('low bits modulo 256', 'board', 'pointer % self.block_words', 'pointer % 256'),
    ('low bits of the inode root modulo 256', 'board', 'board.layout.low_of(trailer[0]) == ', 'board.layout.low_of(trailer[0]) % 256 == '),
    ('low bits of the inode pointer modulo 256', 'board', 'board.layout.low_of(pointer) != 0', 'board.layout.low_of(pointer) % 256 != 0'),
    ('low bits of a root modulo 256', 'board', 'self.layout.low_of(self.root)', 'self.layout.low_of(self.root) % 256'),
    ('low bits of a file pointer modulo 256', 'board', 'board.layout.low_of(word(board, tree.block, index)) != 0', 'board.layout.low_of(word(board, tree.block, index)) % 256 != 0'),
    ('a pointer is 256 times the block', 'board', 'self.address(block, 0) + low', '256 * block + low'),
    ('the block of a pointer by 256', 'board', 'pointer / self.block_words', 'pointer / 256'),
    ('a block spans 2,048 bytes', 'board', 'self.block_bytes() * self.block_words', '2_048 * self.block_words'),
    ('256 pointers of a block are looked at', 'board', '(0..board.layout.block_words).filter', '(0..256).filter'),
    ("the house's greatest size", 'board', 'greatest_size: 2_097_152', 'greatest_size: 32_768'),
    ('a length of 2,097,152 refused', 'calls', 'length <= layout.greatest_size, 6', 'length < layout.greatest_size, 6'),
    ('4,097 bytes at height 0', 'board', 'end <= self.span(height)', 'end <= self.span(height) + 1'),
    ('growth: the old tree at the second pointer', 'plan', 'words[0] = layout.pointer(top, 0)', 'words[1] = layout.pointer(top, 0)'),
    ('tail: 256 words of a block', 'plan', 'for index in 0..self.board.layout.block_words {\n            let first', 'for index in 0..256 {\n            let first'),
    ('length: 256 words of a block', 'plan', 'for index in 0..board.layout.block_words {\n        let first = data', 'for index in 0..256 {\n        let first = data'),
    ('length: 256 pointers of a block', 'plan', 'for index in 0..board.layout.block_words {\n        let first = tree', 'for index in 0..256 {\n        let first = tree'),
    ('format: one word of block 1', 'plan', 'pointers.chain(zeros)', 'pointers.take(1).chain(zeros)'),
    ('format: block 2 is left out', 'plan', 'pointers.chain(zeros)', 'pointers'),
    ('format: 64 words of block 2', 'plan', 'pointers.chain(zeros)', 'pointers.chain(zeros.take(64))'),
    ('format: trailer words from 4 on are not stored', 'plan', '.chain(rest)', '.chain(rest.take(3))'),
]

# The words that name the boards to the test, and how many fewer calls it makes on them.
ON_HOUSE, ON_PUBLISHED = ([], 1), (['published'], 10)


def rustc(folder, *words):
    subprocess.run(['rustc', *FLAGS, '--out-dir', folder, *words], check=True, capture_output=True, text=True, cwd=ROOT)


def edited(folder, file, old, new):
    shutil.rmtree(folder, ignore_errors=True)
    shutil.copytree(os.path.join(ROOT, 'docs', 'src'), os.path.join(folder, 'src'))
    path = os.path.join(folder, 'src', file + '.rs')
    with open(path) as source:
        text = source.read()
    assert old == new or text.count(old) == 1, 'no such place, or more than one: ' + old
    with open(path, 'w') as out:
        out.write(text.replace(old, new))


def round_of_failure(test, what):
    """The round in which the test failed, or None where it passed."""
    if test.returncode == 0:
        return None
    said = re.search(r'round \d+(?=; to repeat)', test.stderr)
    assert said, what + ': the test fails in no round:\n' + test.stderr
    return said.group()


def found(number, edit, boards, calls):
    """Where the test fails on each of the boards after the edit, None where it passes."""
    what, file, old, new = edit
    folder = os.path.join(BUILT, 'mutants', str(number))
    edited(folder, file, old, new)
    rustc(folder, '--crate-type', 'rlib', '--crate-name', 'document', os.path.join(folder, 'src', 'lib.rs'))
    built = {name: os.path.join(BUILT, 'lib%s.rlib' % name) for name in ('support', 'probes')}
    built['document'] = os.path.join(folder, 'libdocument.rlib')
    externs = [word for name, path in built.items() for word in ('--extern', name + '=' + path)]
    rustc(folder, *externs, 'tests/rust/differential.rs')
    results = []
    for words, fewer in boards:
        command = [os.path.join(folder, 'differential'), *words, '1', str(calls // fewer)]
        results.append(round_of_failure(subprocess.run(command, capture_output=True, text=True, cwd=ROOT), what))
    shutil.rmtree(folder)
    return results


def main():
    calls = int(sys.argv[1]) if len(sys.argv) > 1 else 300000
    tried = [(UNCHANGED, [ON_HOUSE, ON_PUBLISHED])] + [(edit, [ON_HOUSE]) for edit in HOUSE]
    tried += [(edit, [ON_HOUSE, ON_PUBLISHED]) for edit in BOTH] + [(edit, [ON_PUBLISHED]) for edit in PUBLISHED]
    with concurrent.futures.ThreadPoolExecutor(2) as pool:
        unchanged, *results = pool.map(lambda job: found(job[0], *job[1], calls), enumerate(tried))
    assert unchanged == [None, None], 'docs/src as it is fails: ' + str(unchanged)
    for ((what, *_), boards), rounds in zip(tried[1:], results):
        for (words, _), result in zip(boards, rounds):
            print('%-58s %-10s %s' % (what, (words or ['house'])[0], result or 'NOT FOUND'))
    assert all(all(rounds) for rounds in results), 'an edit was not found'
    edits = HOUSE + BOTH + PUBLISHED
    print('mutants: %d wrong versions of docs/src, each found by the differential test' % len(edits))
    print('mutants: %d of them on published boards' % len(BOTH + PUBLISHED))


main()
