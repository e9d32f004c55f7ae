#!/usr/bin/env python3
"""The C example of docs/GUIDE.md, compiled and run as it stands there; it must print what the guide says that it prints.

    guide.py            tests
    guide.py --print    prints what the example prints
"""
import os
import re
import subprocess
import sys

ROOT = os.path.dirname(os.path.dirname(os.path.dirname(os.path.abspath(__file__))))
GCC = ['gcc', '-std=c11', '-pedantic', '-Wall', '-Wextra', '-Werror', '-O2', '-Iinclude']


def block(guide, language):
    """The one block of code in this language."""
    found = re.findall(r'^```%s\n(.*?)^```$' % language, guide, re.S | re.M)
    assert len(found) == 1, '%d blocks of %s' % (len(found), language)
    return found[0]


def main():
    with open(os.path.join(ROOT, 'docs', 'GUIDE.md')) as source:
        guide = source.read()
    os.makedirs(os.path.join(ROOT, 'target', 'c'), exist_ok=True)
    program = os.path.join('target', 'c', 'guide')
    with open(os.path.join(ROOT, program + '.c'), 'w') as out:
        out.write(block(guide, 'c'))
    subprocess.run([*GCC, program + '.c', 'target/staticlib/libhosts.a', '-o', program], check=True, cwd=ROOT)
    printed = subprocess.run([os.path.join(ROOT, program)], check=True, capture_output=True, text=True).stdout
    if sys.argv[1:] == ['--print']:
        print(printed, end='')
        return
    assert printed == block(guide, 'text'), 'the example prints something else than the guide has:\n' + printed
    print('guide: the C example compiles and prints what docs/GUIDE.md has')


main()
