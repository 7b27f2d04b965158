#!/usr/bin/env python3
"""Tries what the documents show: every block of answers beside calls is replayed and compared.

    tests/transcripts.py            a block that begins with `./replay --echo FILE` shows a part of what that prints;
                                    one whose lines are `1: CALL -> ANSWER`, `2: ..` is a file of its own; one that
                                    begins with `./judge DUMP` shows all that this prints
    tests/transcripts.py c          prints the first C program of README.md (a block that begins with #include)
"""
import pathlib
import re
import subprocess
import sys

TOP = pathlib.Path(__file__).resolve().parent.parent


def blocks(path):
    """The indented blocks of a document: the number of the first line, and the lines."""
    block = []
    for number, line in enumerate(path.read_text().split('\n') + ['end'], 1):
        if line.startswith('    ') or (block and not line.strip()):
            block.append(line[4:])
        elif block:
            while not block[-1]:
                block.pop()
            yield number - len(block), block
            block = []


def echoed(data, *files):
    done = subprocess.run([TOP / 'replay', '--echo', *files], cwd=TOP, input=data, stdout=subprocess.PIPE)
    return done.stdout.decode().split('\n')[:-1]


def main():
    tried = wrong = 0
    for path in [TOP / 'README.md', TOP / 'samples/README.md', *sorted((TOP / 'docs').glob('*.md'))]:
        for number, block in blocks(path):
            command = re.fullmatch(r'\./replay --echo (\S+)', block[0])
            judged = re.fullmatch(r'\./judge (samples/\S+)', block[0])
            calls = [found.group(1) for line in block if (found := re.match(r'\d+: (.*?) -> ', line))]
            if command and calls:
                shown, truth = block[1:], echoed(b'', command.group(1))
                good = any(truth[n:n + len(shown)] == shown for n in range(len(truth)))
            elif judged:
                shown = block[1:]
                done = subprocess.run([TOP / 'judge', judged.group(1)], cwd=TOP, stdout=subprocess.PIPE)
                truth = done.stdout.decode().split('\n')[:-1]
                good = shown == truth
            elif block[0].startswith('1: '):
                shown, truth = block, echoed('\n'.join(calls).encode())
                good = shown == truth
            else:
                continue
            tried += 1
            if not good:
                wrong += 1
                print('%s:%d: the program says otherwise' % (path.relative_to(TOP), number))
                print('\n'.join('    ' + line for line in shown if line not in truth))
    print('%d transcripts, %d wrong' % (tried, wrong))
    return wrong > 0 or tried == 0


if __name__ == '__main__':
    if sys.argv[1:] == ['c']:
        sys.exit(print('\n'.join(next(b for _, b in blocks(TOP / 'README.md') if b[0].startswith('#include')))))
    sys.exit(main())
