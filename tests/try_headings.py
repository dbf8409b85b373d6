#!/usr/bin/env python3
"""Tries the program headings_of on inputs that are not stored, and says in its last line whether all answers are the reference's.

    try_headings.py [--seed N] [--runs N] PROGRAM [ARGUMENT ..]

The list file's name is put behind the command. Tried are list files of every shape, inputs that end anywhere, records as long as they may be
and longer, inputs handed over in small pieces, and in each of the runs that are asked for 300 records drawn at random with a list of their own.
Beside what is printed it is held to the reference whether something is told on standard error, and of a bad list the line that is named.
"""
import os
import tempfile

from drawing import Draw
from drawn_records import draw_bad_file, draw_either, draw_known
from headings_of import LONGEST_LIST, LONGEST_RECORD, BadList, replies
from record_cases import SOUND, sized
from records import ABSENT, KNOWN, SYMBOL, list_file
from trying import TOLD, Trial, arguments

GOOD = list_file(SYMBOL, ABSENT, KNOWN)
BATCH = SOUND + b'\n' + SOUND[:-1] + SOUND + b'\r\n' + SOUND


class Headings(Trial):
    """Runs with a list file. Counts the records."""

    def __init__(self, command):
        super().__init__(command)
        self.records = 0

    def try_with(self, label, listed, data, piece=None):
        with tempfile.NamedTemporaryFile(prefix='list-') as file:
            file.write(listed)
            file.flush()
            try:
                wanted, told = replies(listed, data), None
            except BadList as bad:
                wanted, told = b'', rb'.*\n' if bad.line is None else rb'.*\b%d\b.*\n' % bad.line
            self.records += wanted.count(b'record ')
            right = self.check(label, data, wanted, piece, [file.name], told)
        if not right and self.wrong <= TOLD:
            print('  its list: %r' % (listed if len(listed) < 300 else listed[:300] + b'..'))


# ---- list files

def shapes():
    """First lines, then later ones, on both sides of the shape."""
    numbers = [b'0', b'9', b'10', b'65535', b'65536', b'65540', b'99999', b'100000', b'4294967296', b'4294967305', b'18446744073709551616',
               b'18446744073709551625', b'00', b'01', b'065535', b'-1', b'+1', b'', b' 1', b'1a', b'a', b'\x31\0', b'/', b':', b'\xb1', b'1 ']
    for number in numbers:
        yield number + b' 65534\n'
        yield b'65534 ' + number + b'\n'
        yield GOOD + number + b' A\n1 B\n'
    yield from (b'', b'\n', b'0 9', b'0 9\n', b'0 9\r\n', b'0\n', b'0 \n', b' \n', b'0  9\n', b'0\t9\n', b'0 9 \n', b'0 9 1\n', b'0 9\n\n',
                b'0 9\n1\n', b'0 9\n1 \n', b'0 9\n1 A', b'0 9\n1 A\n2', b'0 9\n1 A\n2 B', b'0 9\n1 A\n\n2 B\n', b'0 9\n1\tA\n', b'0 9\n1 A\r\n',
                b'\n0 9\n', b'0 9\n1 \0\n', b'0 9\n1  \n', b'0 9\n ', b'x\ny\n', b'0 9\n1 A\n2 A\n', b'0 9\n1 A\n9 B\n', b'0 0\n0 A\n')
    yield from (GOOD[:-1], GOOD + b'\n', GOOD.replace(b'\n', b'\r\n'), GOOD.replace(b'\n', b'\r'), b'\xef\xbb\xbf' + GOOD, GOOD * 2)


def long_lists():
    """As long as may be, and longer; a long line, and many lines, good ones and with a bad one far down."""
    rest = LONGEST_LIST - len(GOOD) - 3
    for more in -1, 0, 1, 2, 70000:
        yield GOOD + b'7 ' + b'x' * (rest + more) + b'\n'
    yield GOOD + b'7 ' + b'x' * rest
    yield b'0' * (LONGEST_LIST + 1)
    yield b'7 8\n' * (LONGEST_LIST // 4 + 1)
    for count in 65534, 65535, 65536, 65537, 70000:
        rising = [(b'%d' % k, 7) for k in range(100000, 100000 + count - len(KNOWN))] + sorted(KNOWN)
        many = list_file(SYMBOL, ABSENT, rising)
        yield from (many, many + b'5\n', many[:-1])
    for count, prime in (3000, 10007), (40000, 40009):
        unlike = list_file(SYMBOL, ABSENT, [(b'%d' % (7919 * k % prime), 7) for k in range(count)] + KNOWN)
        yield from (unlike, unlike + b'7 0\n', unlike + b'9 A\n')
    yield b'0 9\n' + b'1 \n' * 349523


# ---- inputs

def ends():
    """Inputs of few bytes, and of a batch cut off anywhere."""
    yield from (b'', b'\n', b'\r\n\r\n', b'\x1d', b'\x1d\x1d\x1d', b'\n\x1d\n', b'x', b'0', b'00026', b'00026\n', b'\0', b'\x1e')
    yield from (b'%05d' % size + b'x' * (size - 6) + b'\x1d' for size in range(6, 31))
    yield from (b'%05d' % told + b'x' * 20 + b'\x1d' + b'y' * 20 + b'\x1d' for told in (0, 5, 6, 25, 26, 27, 46, 47, 48, 99999))
    yield from (BATCH[:at] for at in range(0, len(BATCH) + 1, 7))
    yield from (BATCH[at:] for at in range(0, len(SOUND), 11))


def long_inputs():
    for size in LONGEST_RECORD - 1, LONGEST_RECORD:
        yield sized(size) + SOUND
        yield b'\n' + sized(size)[:-1] + b'\n' + SOUND
    for size in LONGEST_RECORD - 1, LONGEST_RECORD, LONGEST_RECORD + 1, LONGEST_RECORD + 2, 131071, 131072, 131073, 1 << 18, 1000003:
        for front in b'', b'99999', b'00141':
            yield SOUND + (front + b'x' * size)[:size - 1] + b'\x1d\r\n' + SOUND
            yield SOUND + (front + b'\n' * size)[:size]
    yield b'\x1d' * 3000 + SOUND
    yield b'\n' * 300000 + SOUND + b'\r' * 300000
    yield (b'99999' + b'x' * 44 + b'\x1d') * 3000
    yield (b'99999' + b'x' * 94 + b'\x1d') * 1000
    yield b''.join(sized(1000 + 7919 * k % 98000) for k in range(40))
    yield SOUND * 5000


# ---- drawn

def drawn(draw):
    absent = draw.one([0, 9, 65535])
    known = draw_known(draw, absent)
    listed = draw_bad_file(draw, 1, absent, known) if draw.chance(30) else list_file(1, absent, known)
    ends = draw.one([[b''], [b'\n'], [b'\r\n'], [b'', b'\n', b'\r', b'\r\n\n']])
    pieces = [draw_either(draw, known) + draw.one(ends) for _ in range(300)]
    if draw.chance(30):
        pieces[draw.below(300)] = sized(200 + draw.below(LONGEST_RECORD - 200))
    data = b''.join(pieces)
    return listed, data[:draw.below(len(data) + 1)] if draw.chance(30) else data


def unreadable(trial):
    """A list that is not there, and one that is a folder."""
    for name in os.path.join(tempfile.gettempdir(), 'no-such-list'), tempfile.gettempdir():
        trial.check('unreadable', BATCH, b'', None, [name], rb'.*\n')


def main():
    given = arguments('tries the program headings_of', 60)
    draw, trial = Draw(1000003 * given.seed), Headings(given.program)
    for listed in [*shapes(), *long_lists()]:
        trial.try_with('list', listed, BATCH)
    for data in [*ends(), *long_inputs()]:
        trial.try_with('input', GOOD, data)
    unreadable(trial)
    for piece in 1, 2, 3, 5, 97:
        trial.try_with('in pieces of %d' % piece, GOOD, BATCH + BATCH[:piece], piece)
    for k in range(given.runs):
        trial.try_with('drawn %d' % k, *drawn(draw))
    trial.finish(trial.records, 'records')


if __name__ == '__main__':
    main()
