#!/usr/bin/env python3
"""Makes the stored run of crates/headings_of: a list file, some hundreds of records, and what the reference says of them.

    make_headings.py            writes the files, and says how often each answer is given
    make_headings.py --check    says whether the stored files are what is made today

First the files in marc/, one behind the other, and each damaged one with a sound record behind it; then a record of the longest kind, then
drawn ones. The input ends inside its last record.
"""
import sys
from collections import Counter

import stored
from drawing import Draw
from drawn_records import STRINGS, draw_either
from headings_of import LONGEST_RECORD, replies
from record_cases import SOUND, sized
from records import ABSENT, KNOWN, SYMBOL, list_file, marc_files

SEED, DRAWN = 11, 500

# how often each answer is given; main stops if it is otherwise
GIVEN = {'heading': 210, 'refused 17': 262, 'refused 20': 83, 'refused 21': 57, 'refused 22': 32}

LISTED = KNOWN + [(string, 10 + k) for k, string in enumerate(STRINGS) if string not in dict(KNOWN)]


def of_others():
    """What is stored, as a desk would put files together; a damaged one may take the next with it."""
    made, damaged = marc_files('made'), marc_files('damaged')
    yield from made.values()
    yield from damaged.values()
    for data in damaged.values():
        yield from (data, SOUND, b'\n')


def longest():
    yield from (sized(LONGEST_RECORD), b'\r\n', SOUND, b'\n')


def drawn():
    draw = Draw(SEED)
    for _ in range(DRAWN):
        yield draw_either(draw, LISTED)
        yield draw.one([b'', b'', b'', b'\n', b'\r\n', b'\r', b'\n\n\r'])


def made():
    listed = list_file(SYMBOL, ABSENT, LISTED)
    data = b''.join([*of_others(), *longest(), *drawn(), SOUND[:-1]])
    return {'args': b'list\n', 'data/list': listed, 'stdin': data, 'stdout': replies(listed, data)}


def tally(output):
    """How often each answer is given."""
    answers = (line.split(b' ') for line in output.splitlines()[1::2])
    return Counter((first if first == b'heading' else b' '.join([first, second])).decode() for first, second, *_ in answers)


def main():
    files = made()
    given = tally(files['stdout'])
    if given != GIVEN:
        sys.exit('other answers than GIVEN says: %s' % dict(given))
    stored.keep('headings_of', files, sum(given.values()), 'records')
    for answer, count in GIVEN.items():
        print('%6d %s' % (count, answer))


if __name__ == '__main__':
    main()
