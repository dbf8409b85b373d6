"""Questions that the program refuses, for every number that it can print and every kind of place; each with its answer.

A group adds its questions to the collector that it is given. The program never prints 8, as its buffers are long enough for any heading;
nor 14, which another call gives.
"""
from itertools import product

from chosen_cases import HEADING, NO_TERMS, ONLY_PATTERNS, PATTERN, T, UNSOUND, largest_table, nested, sized_term
from drawing import X, with_byte
from reference import number, question, read_table, table_bytes, two_bytes

LISTING = question(600, PATTERN, HEADING, T)
ALONE = table_bytes([0], [])                      # one constant, 11 bytes: an odd length


def headed(header, rest=b''):
    """A file with that header, whether it is true of the rest or not."""
    return b''.join(map(two_bytes, header)) + rest


def with_number(data, at, value):
    return data[:at] + two_bytes(value % 65536) + data[at + 2:]


# ---- 12

def misshapen(asked):
    twelve = 'refused 12 0'
    for length in range(len(LISTING)):
        asked.ask(LISTING[:length], twelve)
    for length in range(14):
        asked.ask(bytes(length), twelve)
        asked.ask(b'\xff' * length, twelve)
    for more in 1, 2, 6, 255, 256:
        asked.ask(LISTING + bytes(more), twelve)
    for at in range(2, 14, 2):                    # every number of the header but the cut
        for off in 1, 2, -1, -2, 16, 255, 256, -256, 16384, 32768:
            asked.ask(with_number(LISTING, at, number(LISTING, at) + off), twelve)
    for total in range(14, 30):                   # the table's offset, right as it is, lies above the total
        asked.ask(headed((600, 3, 5, 14, 20, 30, total), LISTING[14:total]), twelve)
    for table, _ in UNSOUND:
        asked.ask(question(0, [5, 5], [X], table) + b'\0', twelve)
    for pattern, heading in ([], []), ([X], []), ([], [5]), (PATTERN, HEADING):
        for cut in 0, 600:                        # well shaped, with a table of no bytes
            asked.match(b'', pattern, heading, cut, 'refused 1 0')


def wrapped(asked):
    """Headers and lengths that would be right if numbers were counted modulo 65,536."""
    rest = LISTING[14:]
    for header in ((600, 32771, 5, 14, 20, 30, 96), (600, 3, 32773, 14, 20, 30, 96), (600, 32771, 32773, 14, 20, 30, 96),
                   (600, 16387, 16389, 14, 32788, 30, 96), (600, 49155, 49157, 14, 32788, 30, 96), (600, 35, 32741, 14, 84, 30, 96),
                   (600, 32768, 0, 14, 14, 14, 80), (600, 0, 32768, 14, 14, 14, 80), (600, 16384, 16384, 14, 32782, 14, 80),
                   (600, 32768, 32768, 14, 14, 14, 80), (600, 65535, 1, 14, 12, 14, 80), (600, 1, 65535, 14, 16, 14, 80)):
        asked.ask(headed(header, rest[:header[6] - 14]), 'refused 12 0')
    for length in 96 + 65536, 96 + 131072:
        asked.ask(LISTING + bytes(length - 96), 'refused 12 0')
    asked.ask(headed((600, 3, 5, 14, 20, 30, 0), rest + bytes(65536 - 96)), 'refused 12 0')


def full(asked):
    """Questions of 65,535 bytes, and one byte more."""
    asked.ask(headed((600, 3, 5, 14, 20, 30, 65535), LISTING[14:] + bytes(65535 - 96)), 'refused 1 0')
    asked.ask(headed((600, 3, 5, 14, 20, 30, 65534), LISTING[14:] + bytes(65535 - 96)), 'refused 12 0')
    nodes = (65535 - 14 - len(ALONE)) // 2
    for m, told in (nodes - 1, 'refused 6 1024'), (1, 'refused 7 1024'), (1025, 'refused 6 1024'), (1024, 'refused 6 1'):
        asked.match(ALONE, [0] * m, [0] * (nodes - m), 1, told)
    asked.match(b'\x01', [X] * 32760, [], 600, 'refused 1 0')
    asked.ask(headed((600, 32761, 0, 14, 0, 0, 0), bytes(2 * 32761)), 'refused 12 0')


# ---- 1 to 5

def at_tables(asked, cases):
    for table, told in cases:
        asked.match(table, PATTERN, HEADING, 600, told)


def layouts(asked):
    one, two = 'refused 1 0', 'refused 2 0'
    at_tables(asked, [(T[:length], one) for length in range(len(T))])
    at_tables(asked, [(T + bytes(more), one) for more in (1, 2, 5, 6, 12, 190, 256)])
    at_tables(asked, [(bytes(length), one if length < 10 else two) for length in range(12)])
    at_tables(asked, [(with_number(T, at, number(T, at) + off), one) for at in (4, 6, 8) for off in (1, -1, 2, 6, -6, 256, -256, 32768)])
    at_tables(asked, [(with_number(T[:60], 8, 60), one), (with_number(T + bytes(6), 8, 72), one), (with_byte(T, 12, 9)[:60], one)])
    at_tables(asked, [(with_number(T, 0, symbols), one) for symbols in (1, 7, 9, 256, 257, 264, 512)])
    at_tables(asked, [(with_number(T, 2, pairs), one) for pairs in (0, 7, 9, 256, 8192)])
    for symbols in 0, 513, 520, 768, 32768, 65535:
        at_tables(asked, [(with_number(T, 0, symbols), two), (with_number(with_byte(T, 4, 11), 0, symbols), two)])
    for pairs in 8193, 8200, 10923, 16392, 32776, 65535:
        at_tables(asked, [(with_number(T, 2, pairs), two), (with_number(T[:30], 2, pairs), two)])
    at_tables(asked, [(headed((1, 10923, 10, 11, 13), bytes(3)), two), (headed((1, 0, 0, 0, 0)), one), (headed((1, 0, 10, 11, 10)), one),
                      (headed((0, 0, 10, 10, 10)), two), (headed((513, 0, 10, 523, 523), bytes(513)), two)])


def arity_places(asked):
    table = read_table(T)
    for size in 1, 8, 64, 256, 512:
        for symbol in {0, 1 % size, size // 2, size - 2, size - 1} if size > 1 else {0}:
            for arity in 9, 16, 128, 255:
                at_tables(asked, [(table_bytes([8] * symbol + [arity] * (size - symbol), []), 'refused 3 %d' % symbol),
                                  (table_bytes([0] * symbol + [arity] + [8] * (size - symbol - 1), [(1, 1, 0)]), 'refused 3 %d' % symbol)])
    for symbol in range(8):
        at_tables(asked, [(with_byte(T, 10 + symbol, 9), 'refused 3 %d' % symbol)])
    at_tables(asked, [(table_bytes(table.arities + [8], table.pairs), 'match 600 700')])


def pair_faults(arities, pairs, k):
    """What may not stand at index k, nor hide what comes after it."""
    lower, higher, degree = pairs[k]
    size = len(arities)
    yield from ((lower, lower, degree), (higher, lower, degree), (lower, size, degree), (lower, size + 1, degree), (lower, 65535, degree),
                (lower, higher + 256, degree), (size, size + 1, degree), (65535, 65535, degree), (lower, higher, 0), (lower, higher, 1000), (lower, higher, 1001),
                (lower, higher, 1256), (lower, higher, 33268), (lower, higher, 65535))
    unlike = [s for s in range(lower + 1, size) if arities[s] != arities[lower]]
    yield from ((lower, s, degree) for s in unlike[:1] + unlike[-1:])
    if k:
        yield pairs[k - 1]
        yield pairs[k - 1][:2] + (999,)
        yield from ((a, b, degree) for a, b, _ in pairs[:1] if k > 1)


def pair_places(asked):
    table = read_table(T)
    for k in range(8):
        for fault in pair_faults(table.arities, table.pairs, k):
            for after in table.pairs[k + 1:], [(1, 1, 1)] * (7 - k):
                at_tables(asked, [(table_bytes(table.arities, table.pairs[:k] + [fault] + after), 'refused 4 %d' % k)])
        if k:
            turned = table.pairs[:k - 1] + [table.pairs[k], table.pairs[k - 1]] + table.pairs[k + 1:]
            at_tables(asked, [(table_bytes(table.arities, turned), 'refused 4 %d' % k)])
        for degree in 1, 999:
            kept = table.pairs[:k] + [table.pairs[k][:2] + (degree,)] + table.pairs[k + 1:]
            asked.match(table_bytes(table.arities, kept), [X], HEADING, 1)
    row = [(s, s + 1, 500) for s in range(255)]
    for k in 0, 1, 127, 128, 253, 254:
        for fault in list(pair_faults([0] * 256, row, k))[::3]:
            asked.match(table_bytes([0] * 256, row[:k] + [fault] + row[k + 1:]), [X], [k], 500, 'refused 4 %d' % k)
    most = largest_table()
    for k in 0, 4096, 8191:
        asked.match(with_number(most, 10 + 512 + 6 * k + 4, 1000), [X], [0], 500, 'refused 4 %d' % k)
    asked.match(most[:-1], [X], [0], 500, 'refused 1 0')


def cuts(asked):
    for cut in 0, 1001, 1002, 1024, 1256, 2000, 32768, 33368, 64536, 65535:
        for pattern, heading in (PATTERN, HEADING), ([], []), ([5, 5], [X]), ([5], [5]), ([1], [6]):
            asked.match(T, pattern, heading, cut, 'refused 5 0')
    for cut in 1, 2, 255, 256, 257, 512, 768, 999, 1000:
        for pattern in [5], [6], [X]:
            asked.match(T, pattern, [5], cut)


# ---- 6 and 7

def strays(nodes, bad):
    """The list with a node that may not stand there, and the list that stops there, at its ends and in its midst."""
    for at in sorted({0, 1, len(nodes) // 2, len(nodes) - 2, len(nodes) - 1} & set(range(len(nodes)))):
        yield nodes[:at], at
        for node in bad:
            yield nodes[:at] + [node] + nodes[at + 1:], at


def no_terms():
    """Lists over T and the place of their first fault, pattern or heading."""
    yield from NO_TERMS
    for size in 1, 2, 5, 64, 65, 1023, 1024:
        yield from strays(sized_term(size), (8, 255, 256, 32767, 32800, 65535) if size < 1000 else (8, 65535))
    for size in 1, 2, 64, 1022, 1023:
        for node in 5, 0, X, 65535:
            yield sized_term(size) + [node], size
    for before in 0, 1, 100, 958, 959:            # a term of depth 65, the last of its nodes too deep
        deep = [0] + sized_term(before) + nested(64, 5) if before else nested(65, 5)
        yield deep, len(deep) - 1
        yield deep[:-1] + [X], len(deep) - 1
        yield deep[:-1] + [1, 5], 1024 if len(deep) == 1024 else len(deep) - 1
        yield deep[:-1], len(deep) - 1            # and with that node missing
    for size in 1025, 1026, 1280, 2048:
        yield sized_term(size), 1024


def faults(asked):
    for nodes, place in no_terms():
        asked.match(T, nodes, [0, 65535, 5], 500, 'refused 6 %d' % place)
        if X not in nodes:
            asked.match(T, [5], nodes, 500, 'refused 7 %d' % place)
    for nodes, place in ONLY_PATTERNS:
        asked.match(T, nodes, nodes, 500, 'refused 7 %d' % place)
    for size in 1, 2, 5, 64, 65, 1024:
        for heading, place in strays(sized_term(size), (X, 32799)):
            asked.match(T, [X], heading, 500, 'refused 7 %d' % place)
    asked.match(T, sized_term(30000), HEADING, 500, 'refused 6 1024')
    asked.match(T, PATTERN, sized_term(30000), 500, 'refused 7 1024')
    for pattern, heading in product((PATTERN, [5, 5]), (HEADING, [5, 1, 5])):
        for cut in 0, 600:
            asked.match(T, pattern, heading, cut)


def order(asked):
    """Every choice of faults, of which the first in order is told."""
    tables, cuts = UNSOUND + [(T, '')], ((0, 'refused 5 0'), (701, ''))
    patterns = ([5, 5], 'refused 6 1', ''), ([0, X, 1, X], '', 'refused 9 2'), (PATTERN, '', 'refused 10 0')
    headings = ([0, X, 5], 'refused 7 1'), (HEADING, '')
    for more, t, c, p, h in product((1, 0), tables, cuts, patterns, headings):
        told = more * 'refused 12 0' or t[1] or c[1] or p[1] or h[1] or p[2]
        asked.ask(question(c[0], p[0], h[0], t[0]) + bytes(more), told)


GROUPS = [misshapen, wrapped, full, layouts, arity_places, pair_places, cuts, faults, order]
