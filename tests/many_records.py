#!/usr/bin/env python3
"""Writes many records, the same every time, for a run that has to keep its memory.

    many_records.py N > RECORDS
    many_records.py N --text > TEXT     what is to be printed of them, with the list crates/headings_of/data/list
"""
import sys

import stored
from drawing import Draw
from drawn_records import draw_either
from headings_of import replies
from make_headings import LISTED

SEED, DRAWN = 17, 1000


def many(count):
    """So many pieces of input, each one of the drawn ones. Damage may make fewer records of them, or more."""
    draw = Draw(SEED)
    drawn = [draw_either(draw, LISTED) for _ in range(DRAWN)]
    for _ in range(count):
        yield draw.one(drawn) + draw.one([b'', b'\n', b'\r\n'])


def main():
    if len(sys.argv) not in (2, 3) or sys.argv[2:] not in ([], ['--text']):
        sys.exit(__doc__)
    pieces = many(int(sys.argv[1]))
    if sys.argv[2:]:
        sys.stdout.buffer.write(replies(stored.content(stored.place('headings_of', 'data/list')), b''.join(pieces)))
    else:
        sys.stdout.buffer.writelines(pieces)


if __name__ == '__main__':
    main()
