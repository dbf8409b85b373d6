#!/usr/bin/env python3
"""The program `headings_of` in plain Python: a list of known strings and many records, their headings in one output.

    headings_of.py LIST < RECORDS

Its first line has two numbers, the heading symbol's and that of absent dates; each other line of a list has a number and a string. For every
record there is the line `record K`, K from 0, and behind it the heading or the refusal.
"""
import re
import sys

from exchange import RECORD_END, SHORTEST, check_list, digits, record_heading
from reference import Refused

# the most bytes that a list file may have, and the most that a record can say to have
LONGEST_LIST, LONGEST_RECORD = (1 << 20) - 1, 99999
LINE_ENDS = b'\n\r'


class BadList(Exception):
    """A list file of another shape, by its first bad line, from 1; one that is too long has no such line."""

    def __init__(self, line):
        super().__init__(line)
        self.line = line


# ---- the list file

def number(text, line):
    """A number of 16 bits in decimal, and no other way of writing it."""
    if not re.fullmatch(rb'0|[1-9][0-9]{0,4}', text) or int(text) > 65535:
        raise BadList(line)
    return int(text)


def read_list(data):
    """The heading symbol, the number of absent dates, and the strings with their numbers."""
    if len(data) > LONGEST_LIST:
        raise BadList(None)
    *lines, rest = data.split(b'\n')
    found = []
    for k, line in enumerate(lines, 1):
        before, space, behind = line.partition(b' ')
        if not space:
            raise BadList(k)
        found.append((number(behind, k), number(before, k)) if k == 1 else (behind, number(before, k)))
    if rest or not lines:
        raise BadList(len(lines) + 1)
    (absent, symbol), *known = found
    return symbol, absent, known


# ---- the records

def record_end(data, start):
    """Where the record that begins there ends: by its own length, if it has that form, otherwise behind the next mark of a record's end."""
    told = digits(data, start, 5)
    if told is not None and told >= SHORTEST and data[start + told - 1:start + told] == bytes([RECORD_END]):
        return start + told
    mark = data.find(RECORD_END, start)
    return len(data) if mark < 0 else mark + 1


def cut(data):
    """The records of an input."""
    at = 0
    while True:
        while at < len(data) and data[at] in LINE_ENDS:
            at += 1
        if at == len(data):
            return
        end = record_end(data, at)
        yield data[at:end]
        at = end


# ---- what is printed

def answer(record, checked, symbol, absent, known):
    try:
        if checked is not None:
            raise checked
        if len(record) > LONGEST_RECORD:
            raise Refused(17, 0)
        return 'heading %d %d %d\n' % (symbol, *record_heading(record, known, absent))
    except Refused as why:
        return 'refused %d %d\n' % (why.number, why.place)


def first_bad(known, absent):
    """The refusal of a list with a bad entry, None of another."""
    try:
        check_list(known, absent)
    except Refused as why:
        return why


def replies(listed, data):
    """The whole text. A list file of another shape is the exception BadList."""
    symbol, absent, known = read_list(listed)
    checked = first_bad(known, absent)
    return ''.join('record %d\n' % k + answer(record, checked, symbol, absent, known) for k, record in enumerate(cut(data))).encode()


def main():
    if len(sys.argv) != 2:
        sys.exit(__doc__)
    try:
        with open(sys.argv[1], 'rb') as stored:
            listed = stored.read()
        sys.stdout.buffer.write(replies(listed, sys.stdin.buffer.read()))
    except OSError as why:
        sys.exit(str(why))
    except BadList as bad:
        sys.exit('line %s of the list has another shape' % bad.line if bad.line else 'the list is too long')


if __name__ == '__main__':
    main()
