"""Cases of the call on exchange records, chosen by hand: for each rule the inputs on both sides of it, and the records in marc/.

A group adds its cases to the collector that it is given, with the answer where it is known from another source than the reference.
"""
from drawing import with_byte
from exchange import RECORD_END
from headings_of import cut
from records import (ABSENT, KNOWN, SYMBOL, each_without_a_digit, framed, laid_out, lent, marc_files, name_field, parts, put, read_by_others,
                     record, swapped)

LIST = lent(KNOWN)
NAME, DATES = KNOWN[0][0], KNOWN[4][0]
HEADING = [SYMBOL, 1, 4]                          # of this name and these dates
FIELDS = [(b'001', b'a0001'), (b'100', name_field(NAME, DATES)), (b'400', name_field(NAME[:-1]))]
SOUND = record(*FIELDS)
ENTRIES, BASE, END = (24, 36, 48), 61, len(SOUND)
LONGEST = 99999


def frame(at):
    return 'refused 17 %d' % at


def of_field(content):
    """A record of this 100 field between others."""
    return record((b'001', b'a0001'), (b'100', content), (b'400', name_field(NAME)))


# ---- the frame: record length and base address

def lengths(cases):
    cases.heading(SOUND, LIST, HEADING)
    shortest = framed([], b'')
    cases.heading(shortest, LIST, 'refused 20 0')
    cases.heading(with_byte(shortest, 24, 0x1d), LIST, frame(24))
    cases.heading(with_byte(shortest, 25, 0x1e), LIST, frame(25))
    for size in range(26):
        cases.heading(put(shortest[:size], 0, b'%05d' % size)[:size], LIST, frame(0))
    for size in 0, 25, 26, 60, END - 1:
        cases.heading(SOUND[:size], LIST, frame(0))
    for told in 0, 25, 26, END - 1, END + 1, END + 65536, LONGEST:
        cases.heading(put(SOUND, 0, b'%05d' % told), LIST, frame(0))
    for behind in b'\n', b'\0', SOUND:
        cases.heading(SOUND + behind, LIST, frame(0))
    for copy in each_without_a_digit(SOUND, 0, 5):
        cases.heading(copy, LIST, frame(0))
        cases.heading(put(copy, 12, b'xxxxx'), LIST, frame(0))


def bases(cases):
    for told in 0, 1, 12, 13, 24, 26, 36, 38, 49 + 1, BASE - 1, BASE + 1, END, END + 1, 25 + 12 * 100, 25 + 12 * 8331, LONGEST:
        cases.heading(put(SOUND, 12, b'%05d' % told), LIST, frame(12))
    for copy in each_without_a_digit(SOUND, 12, 5):
        cases.heading(copy, LIST, frame(12))
        cases.heading(put(copy, 24, b'x' * 36), LIST, frame(12))
    # one that is a directory's end and not this one's
    cases.heading(put(SOUND, 12, b'00025'), LIST, frame(24))
    cases.heading(put(SOUND, 12, b'00037'), LIST, frame(36))
    cases.heading(put(SOUND, 12, b'00073'), LIST)
    # the length itself is no base address, and one less leaves no field
    for size, told in (49, frame(12)), (50, frame(31)):
        whole = put(framed([(b'001', 1, 0)], b'x' * (size - 38)), 12, b'00049')
        assert len(whole) == size
        cases.heading(put(whole, 24 + 12, b'001000100000'[:size - 37]), LIST, told)


# ---- the frame: entries and marks

def faults(at):
    """Copies of the sound record with a fault in the entry that begins there, and where it is told."""
    for copy in each_without_a_digit(SOUND, at + 3, 4):
        yield copy, at + 3
    yield put(SOUND, at + 3, b'0000'), at + 3
    yield put(SOUND, at + 3, b'0000xxxxx'), at + 3
    for copy in each_without_a_digit(SOUND, at + 7, 5):
        yield copy, at + 7
    for length, start in (9999, 0), (1, LONGEST), (1, END - 1 - BASE), (END - BASE, 0), (9999, LONGEST), (2, END - 2 - BASE):
        yield put(SOUND, at + 3, b'%04d%05d' % (length, start)), at + 7


def entries(cases):
    for at in ENTRIES:
        for copy, place in faults(at):
            cases.heading(copy, LIST, frame(place))
    # the first fault in the directory is told, and before any mark
    for copy, place in faults(ENTRIES[1]):
        cases.heading(swapped(put(copy, ENTRIES[2], b'xxxxxxxxxxxx'), RECORD_END, 0), LIST, frame(place))
    for at in ENTRIES:
        cases.heading(swapped(put(SOUND, at + 7, b'99999'), 0x1e, 0x20), LIST, frame(at + 7))
        cases.heading(put(SOUND, at + 3, b'0001%05d' % (END - 2 - BASE)), LIST)        # the last byte that a field may have


def marks(cases):
    for byte in 0, 0x1d, 0x1f, 0x20, 0x30:
        cases.heading(with_byte(SOUND, BASE - 1, byte), LIST, frame(BASE - 1))
    ends = [at for at in range(BASE, END) if SOUND[at] == 0x1e]
    for mark in ends:
        for byte in 0, 0x1d, 0x1f, 0x20:
            cases.heading(with_byte(SOUND, mark, byte), LIST, frame(mark))
        cases.heading(with_byte(with_byte(SOUND, mark, 0), BASE - 1, 0), LIST, frame(BASE - 1))
        cases.heading(with_byte(with_byte(SOUND, mark, 0), END - 1, 0), LIST, frame(mark))
    for byte in 0, 0x0a, 0x1e, 0x1f:
        cases.heading(with_byte(SOUND, END - 1, byte), LIST, frame(END - 1))
    # in directory order, not in that of the bytes
    body, places = laid_out([content for _, content in FIELDS])
    for order in (2, 1, 0), (1, 0, 2), (2, 0, 1):
        shuffled = framed([(FIELDS[k][0], *places[k]) for k in order], body)
        cases.heading(shuffled, LIST, HEADING)
        cases.heading(swapped(shuffled[:BASE] + swapped(shuffled[BASE:], 0x1e, 0), RECORD_END, 0), LIST, frame(ends[order[0]]))
        cases.heading(with_byte(with_byte(shuffled, ends[order[1]], 0), ends[order[2]], 0), LIST, frame(ends[order[1]]))


def sized(size):
    """A sound record of so many bytes, its name last."""
    filler = [(b'670', b'x' * 5000)] * ((size - 100) // 5013)
    rest = size - len(record(*filler, (b'670', b''), FIELDS[1]))
    return record(*filler, (b'670', b'x' * rest), FIELDS[1])


def high(cases):
    """Places that 16 bits do not hold. A record of the longest kind that is sound is asked of the program."""
    cases.heading(with_byte(sized(LONGEST), LONGEST - 2, 0), LIST, frame(LONGEST - 2))
    many = framed([(b'100', len(FIELDS[1][1]) + 1, 0)] * 5463, FIELDS[1][1] + b'\x1e')
    last = 24 + 12 * 5462
    cases.heading(put(many, last + 7, b'00001'), LIST, frame(last + 7))
    assert last > 65535 - 12 and last + 7 > 65535


def untested(cases):
    """What the frame's tests leave alone."""
    for tag in b'1X0', b'   ', b'\0\0\0', b'\xff\x1e\x1d':
        cases.heading(put(SOUND, ENTRIES[0], tag), LIST, HEADING)
    for leader in bytes(14), b'\xff' * 14, b'\x1e' * 14, b'99999' * 2 + b'9999':
        cases.heading(record(*FIELDS, leader=leader), LIST, HEADING)
    body, places = laid_out([content for _, content in FIELDS])
    every = [(FIELDS[k][0], *places[k]) for k in range(3)]
    cases.heading(framed(every * 2, body), LIST, HEADING)                              # fields that overlap
    cases.heading(framed(every[1:2], body), LIST, HEADING)                             # bytes that no entry claims
    cases.heading(framed(every, body + b'\x1e\x1d\x1f' * 9), LIST, HEADING)
    whole = (b'100', len(body), 0)
    cases.heading(framed([whole], body), LIST, 'refused 22 1')                         # a field may have marks inside
    cases.heading(framed([whole], b'1 \x1fa' + NAME + b'\x1fd\x1e' + b'\x1e' * (len(body) - 7 - len(NAME))), LIST, 'refused 22 1')
    for inside in b'A\x1eB', b'\x1e', b'A\x1d', b'\n', b'A\0B':
        cases.heading(of_field(name_field(inside)), lent(KNOWN + [(inside, 8)]), [SYMBOL, 8, ABSENT])
        cases.heading(of_field(name_field(inside)), lent(KNOWN + [(inside[:1], 8)]), None if len(inside) == 1 else 'refused 22 0')


# ---- fields and subfields

def fields(cases):
    for tag in b'110', b'010', b'101', b'1 0', b'1O0', b'000', b'001', b'10\0', b'\xb1\xb0\xb0':
        cases.heading(put(SOUND, ENTRIES[1], tag), LIST, 'refused 20 0')
    cases.heading(record((b'001', b'100'), (b'400', name_field(NAME, DATES))), LIST, 'refused 20 0')
    # the first of the directory, whatever its place in the record; nothing is looked for in another
    other = name_field(KNOWN[2][0], KNOWN[5][0])
    body, (one, two) = laid_out([FIELDS[1][1], other])
    cases.heading(framed([(b'100', *one), (b'100', *two)], body), LIST, HEADING)
    cases.heading(framed([(b'100', *two), (b'100', *one)], body), LIST, [SYMBOL, 2, 5])
    cases.heading(framed([(b'110', *one), (b'100', *two)], body), LIST, [SYMBOL, 2, 5])
    for content, told in ((name_field(NAME), [SYMBOL, 1, ABSENT]), (b'1 ' + parts(b'd' + DATES), 'refused 21 0'), (b'', 'refused 21 0'),
                          (name_field(b'?'), 'refused 22 0')):
        cases.heading(record((b'100', content), (b'100', other)), LIST, told)


def subfields(cases):
    a, d = b'a' + NAME, b'd' + DATES
    read = [(parts(a, d), HEADING), (parts(d, a), HEADING), (parts(a), [SYMBOL, 1, ABSENT]), (parts(b'cSohn,', a, b'x', d, b'y'), HEADING),
            (parts(a, b'aStrauss, J.', d), HEADING), (parts(b'aStrauss, J.', a, d), HEADING), (parts(b'a' + KNOWN[2][0], a, d), [SYMBOL, 2, 4]),
            (parts(a, d, b'd' + KNOWN[5][0]), HEADING), (parts(a, b'd?', d), 'refused 22 1'), (parts(b'a?', a, d), 'refused 22 0'),
            (parts(b'A' + NAME, d), 'refused 21 0'), (parts(a, b'D' + DATES), [SYMBOL, 1, ABSENT]), (parts(d), 'refused 21 0'),
            (b'junk' + parts(a, d), HEADING), (b'a' + NAME + parts(d), 'refused 21 0'), (b'a' + NAME + parts(a), [SYMBOL, 1, ABSENT]),
            (parts(b'', a, d), HEADING), (parts(a, b'', d), HEADING), (parts(b'', b'', a, b'', b'', d, b''), HEADING),
            (parts(a, d, b''), HEADING), (parts(a, b''), [SYMBOL, 1, ABSENT]), (parts(b''), 'refused 21 0'), (b'', 'refused 21 0'),
            (parts(b'a', d), 'refused 22 0'), (parts(a, b'd'), 'refused 22 1'), (parts(d, b'a'), 'refused 22 0'), (parts(b'a', b'd'), 'refused 22 0'),
            (parts(b'a?', b'd?'), 'refused 22 0'), (parts(b'a' + NAME + b' '), 'refused 22 0'), (parts(b'a ' + NAME), 'refused 22 0'),
            (parts(b'a' + NAME[:-1]), 'refused 22 0'), (parts(a, d + b'.'), 'refused 22 1'), (parts(b'a' + NAME.upper()), 'refused 22 0'),
            (parts(b'aa' + NAME), 'refused 22 0'), (parts(b'\x1e' + NAME, a), [SYMBOL, 1, ABSENT])]
    for behind, told in read:
        for indicators in b'1 ', b'\x1fa':
            cases.heading(of_field(indicators + behind), LIST, told)
    for content in b'', b'1', b'\x1f', b'1 ', b'\x1fa', b'\x1fa' + NAME, b'1\x1fa' + NAME, b'\x1f' + a:
        cases.heading(of_field(content), LIST, 'refused 21 0')
    empty = lent(KNOWN + [(b'', 8)])
    cases.heading(of_field(b'1 ' + parts(b'a', d)), empty, [SYMBOL, 8, 4])
    cases.heading(of_field(b'1 ' + parts(a, b'd')), empty, [SYMBOL, 1, 8])
    cases.heading(of_field(b'1 ' + parts(a)), empty, [SYMBOL, 1, ABSENT])
    cases.heading(of_field(b'1 ' + parts(b'd', b'a')), empty, [SYMBOL, 8, 8])
    cases.heading(of_field(b'1 ' + parts(a, d)), lent([(NAME + b'\x1fd' + DATES, 1)]), 'refused 22 0')


def strings(cases):
    """Byte for byte, however long."""
    long = bytes(32 + k % 90 for k in range(700))
    for listed, told in (long, [SYMBOL, 7, ABSENT]), (long[:-1], 'refused 22 0'), (long + b'.', 'refused 22 0'), (long[:-1] + b'!', 'refused 22 0'):
        cases.heading(of_field(name_field(long)), lent([(listed, 7)]), told)
    every = [(bytes([byte]), byte) for byte in range(256)]
    for byte in 0, 0x1d, 0x1e, 0x80, 0xff:
        cases.heading(of_field(name_field(bytes([byte]))), lent(every), [SYMBOL, byte, 300], absent=300)
    cases.heading(of_field(name_field(b'\x1f')), lent(every), 'refused 22 0', absent=300)


# ---- the list, the room, and the order

def lists(cases):
    a, b, c = b'A', b'B', b'C'
    listed = [([(a, 8), (b, 1), (b, 2)], 8, 0), ([(a, 1), (b, 2), (a, 3), (b, 8)], 8, 2), ([(a, 9)], 9, 0), ([(a, 1), (a, 1)], 9, 1),
              ([(a, 1), (b, 2), (c, 3), (c, 4)], 9, 3), ([(a, 1), (b, 2), (c, 9)], 9, 2), ([(c, 1), (b, 2), (a, 9)], 9, 2),
              ([(a, 1), (b, 9), (a, 2)], 9, 1), ([(c, 1), (a, 2), (c, 9), (a, 9)], 9, 2), ([(b'', 1), (b'', 2)], 9, 1),
              ([(a, 0), (b, 65535)], 65535, 1), ([(a, 0)], 0, 0), ([(a, 1), (b, 2), (a, 3), (a, 4), (b, 5)], 9, 2)]
    long = [(b'%03d' % (337 * k % 1000), k) for k in range(130)]
    listed += [(long + [long[0]], 500, 130), (sorted(long) + [max(long)], 500, 130)]
    for known, absent, place in listed:
        for room in 3, 2, 0:                      # the list comes first, then the room, then the record
            cases.heading(SOUND, lent(known), 'refused 19 %d' % place, absent=absent, room=room)
            cases.heading(b'', lent(known), 'refused 19 %d' % place, absent=absent, room=room)
    for absent, symbol, told in (9, 0, HEADING), (0, 0, HEADING), (9, 9, [9, 1, 4]), (9, 1, [1, 1, 4]), (65535, 65535, [65535, 1, 4]):
        cases.heading(SOUND, LIST, told, symbol=symbol, absent=absent)
    synonyms = lent([(NAME, 5), (DATES, 5), (b'S', 5)])
    cases.heading(SOUND, synonyms, [SYMBOL, 5, 5])
    cases.heading(SOUND, lent([(DATES, 65535), (NAME, 32768)]), [SYMBOL, 32768, 65535])
    for known in long, sorted(long), sorted(long)[::-1]:
        cases.heading(SOUND, lent(known), 'refused 22 0', absent=500)
        cases.heading(SOUND, lent(known + [(NAME, 600), (DATES, 601)]), [SYMBOL, 600, 601], absent=500)
    cases.heading(SOUND, lent([]), 'refused 22 0')


def lent_lists(cases):
    """Every triple is a list."""
    one = lent([(NAME, 1), (DATES, 4)])
    text, (first, last), numbers = one
    cases.heading(SOUND, one, HEADING)
    # the shorter of the two lists counts, and what the other has more is not there
    cases.heading(SOUND, (text, [first, last], [1, 4, ABSENT]), HEADING)
    cases.heading(SOUND, (text, [first, last, last, last], [1, 4]), HEADING)
    cases.heading(SOUND, (text, [first, last], [1]), 'refused 22 1')
    cases.heading(SOUND, (text, [first], [1, 4]), 'refused 22 1')
    cases.heading(SOUND, (text, [], [1, 4]), 'refused 22 0')
    cases.heading(SOUND, (text, [first, last], []), 'refused 22 0')
    cases.heading(SOUND, (b'', [first, last], numbers), 'refused 19 1')
    # behind the text there is nothing
    for beyond in last + 1, last + 65536, (1 << 32) - 1:
        cases.heading(SOUND, (text, [first, beyond], numbers), HEADING)
        cases.heading(SOUND, (text, [first, beyond, beyond], [1, 4, 7]), HEADING)
        cases.heading(SOUND, (text, [first, beyond, beyond, 1 << 31], [1, 4, 7, 7]), 'refused 19 3')
        cases.heading(SOUND, (text, [beyond, last], numbers), 'refused 22 0')
    # an end that falls gives the empty string, and the next begins there
    cases.heading(SOUND, (text, [last, 0, first, last], [5, 6, 1, 4]), HEADING)
    cases.heading(SOUND, (text, [first, 0, first, last], [1, 6, 7, 4]), 'refused 19 2')
    cases.heading(SOUND, (text, [(1 << 32) - 1, first, last], [5, 6, 4]), 'refused 22 0')
    cases.heading(SOUND, (text, [(1 << 32) - 1, 0, first, last], [5, 6, 1, 4]), HEADING)
    cases.heading(SOUND, (text, [last, first, 0, last], [5, 6, 7, 4]), 'refused 19 2')
    cases.heading(SOUND, (text, [0, first, last], [7, 1, 4]), HEADING)
    cases.heading(SOUND, (text + b'behind', [first, last], numbers), HEADING)
    cases.heading(of_field(name_field(b'')), (text, [last, 0], [5, 6]), [SYMBOL, 6, ABSENT])


def rooms(cases):
    for room in 0, 1, 2:
        for given in SOUND, SOUND[:-1], b'', of_field(b''), of_field(name_field(b'?')), put(SOUND, ENTRIES[1], b'110'):
            cases.heading(given, LIST, 'refused 8 0', room=room)
    for room in 3, 4, 5:
        cases.heading(SOUND, LIST, HEADING, room=room)
        for given, told in (SOUND[:-1], frame(0)), (of_field(b''), 'refused 21 0'), (of_field(name_field(b'?')), 'refused 22 0'):
            cases.heading(given, LIST, told, room=room)
        cases.heading(of_field(name_field(NAME, b'?')), LIST, 'refused 22 1', room=room)
        cases.heading(put(SOUND, ENTRIES[1], b'110'), LIST, 'refused 20 0', room=room)


# ---- records of others

def of_others(cases):
    made = marc_files('made')
    numbers = dict(KNOWN)
    for given, (name, dates) in zip(cut(made['yaz-utf8']), read_by_others(), strict=True):
        cases.heading(given, LIST, [SYMBOL, numbers[name], numbers[dates] if dates else ABSENT])
    assert all(made['yaz-utf8'] == made[other] for other in ('yaz-line', 'catmandu', 'perl-record', 'perl-xml'))
    once = {}
    for stored in made, marc_files('damaged'):
        for name, data in stored.items():
            if len(data) <= LONGEST:
                once.update((given, name) for given in [data, *cut(data)])
    for given in once:
        cases.heading(given, LIST)


GROUPS = [lengths, bases, entries, marks, high, untested, fields, subfields, strings, lists, lent_lists, rooms, of_others]
