"""What the tests share that send calls to a program in C (sent.h) and hold the line that it prints for each against the model's."""
import os
import subprocess
import sys

ROOT = os.path.dirname(os.path.dirname(os.path.dirname(os.path.abspath(__file__))))
sys.path.insert(0, os.path.join(ROOT, 'tests', 'reference'))
from making import image_of


class Calls:
    """Calls as they are sent, with what each is called in a report and the line that it must give."""

    def __init__(self):
        self.sent, self.named, self.wanted, self.lent = [], [], [], ''

    def lend(self, letter, numbers, content, lent):
        """An image or a board for the calls that follow, which are reported as calls on it."""
        self.sent.append(letter + image_of(numbers) + content)
        self.lent = lent

    def add(self, sent, name, wanted):
        self.sent.append(sent)
        self.named.append('%s, %s' % (self.lent, name))
        self.wanted.append(wanted.rstrip())

    def check(self, answer):
        self.add(b'C', 'check', 'check %d' % answer)

    def size(self, file, answer):
        self.add(b'S' + image_of([file]), 'size of file %d' % file, 'size %d' % answer)

    def read(self, file, offset, length, fill, read):
        """A read into so many bytes that hold `fill`; `read` says what it answers and leaves in a buffer."""
        answer, out = read(file, offset, [fill] * length)
        self.add(b'R' + image_of([file, offset, length, fill]), 'read of file %d at %d, %d bytes over %d' % (file, offset, length, fill),
                 'read %d %s' % (answer, bytes(out).hex()))

    def answers(self):
        """How many calls are accepted, and refused by each number."""
        counts = {}
        for line in self.wanted:
            answer = int(line.split()[1])
            kind = 'accepted' if answer >= 0 else 'refused %d' % -answer
            counts[kind] = counts.get(kind, 0) + 1
        return ', '.join('%s %d' % kind for kind in sorted(counts.items()))

    def same(self, name, lent):
        """Has target/c/NAME make the calls, on what is named, and says how they compare. Whether all lines are as they must be."""
        done = subprocess.run([os.path.join(ROOT, 'target', 'c', name)], input=b''.join(self.sent), capture_output=True, timeout=600)
        found = [line.rstrip() for line in done.stdout.decode().splitlines()]
        failed = [i for i in range(len(self.wanted)) if i >= len(found) or found[i] != self.wanted[i]]
        for i in failed[:20]:
            print('%s: %s' % (self.named[i], difference(self.wanted[i], found[i]) if i < len(found) else 'no answer'))
        print('%s: %d calls on %s as the reference model has them, %d not; %s'
              % (name, len(self.wanted) - len(failed), lent, len(failed), self.answers()))
        ended = done.returncode == 0 and len(found) == len(self.wanted)
        if not ended:
            print('%s: the program ended with status %d after %d answers of %d. %s'
                  % (name, done.returncode, len(found), len(self.wanted), done.stderr.decode().strip()))
        return ended and not failed


def difference(wanted, found):
    if wanted.split()[:2] != found.split()[:2] or len(wanted) != len(found) or not wanted.startswith('read'):
        return 'expected %s, found %s' % (wanted[:60], found[:60])
    wanted, found = bytes.fromhex(wanted.split()[2]), bytes.fromhex(found.split()[2])
    at = next(i for i in range(len(wanted)) if wanted[i] != found[i])
    return 'byte %d of the buffer: expected %d, found %d' % (at, wanted[at], found[at])
