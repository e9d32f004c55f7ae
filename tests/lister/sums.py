"""N1 of document 02: 'all files' held counts, the free count and 11 make B', in the numbers that the lister printed."""
import re

BOARD = re.compile(r'blocks (\d+) free (\d+)\n')
FILE = re.compile(r'file \d+ size [1-9]\d* height \d held (\d+)\n')
OWN = 11  # block 0, the trailer, the inode pointer block and 8 inode leaves


def adds_up(text):
    """Whether the lines of an accepted board have that sum."""
    board, *files = text.splitlines(True)
    blocks, free = map(int, BOARD.fullmatch(board).groups())
    held = [int(FILE.fullmatch(file).group(1)) for file in files]
    return sum(held) + free + OWN == blocks
