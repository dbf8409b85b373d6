#!/usr/bin/env python3
"""The program `replay` in plain Python: many questions in one input, their answers in one output.

    replay.py < BATCH

Before each question stand four bytes that say how long it is, low byte first. An answer follows the line `question K`, K from 0. Where
the input ends before a length or its question does, the answer is `cut off`, and it is the last.
"""
import sys

import reference


def framed(question):
    return len(question).to_bytes(4, 'little') + question


def replies(batch):
    said, at, count = [], 0, 0
    while at < len(batch):
        said.append('question %d\n' % count)
        start = at + 4
        end = start + int.from_bytes(batch[at:start], 'little')
        if start > len(batch) or end > len(batch):
            said.append('cut off\n')
            break
        said.append(reference.ask(batch[start:end]))
        at, count = end, count + 1
    return ''.join(said).encode()


if __name__ == '__main__':
    sys.stdout.buffer.write(replies(sys.stdin.buffer.read()))
