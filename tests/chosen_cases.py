"""Cases that were chosen by hand: document 01's examples, and for each rule the inputs on both sides of it.

A group adds its cases to the collector that it is given, with the answer where it is known from another source than the reference.
"""
import reference
from call_cases import GUARD, SETS
from drawing import X, with_byte
from reference import MOST_PAIRS, MOST_SYMBOLS, SAVED, WORDS, table_bytes

T = table_bytes([2, 1, 1, 1, 1, 0, 0, 0],
                [(1, 2, 500), (1, 3, 600), (1, 4, 700), (2, 3, 600), (2, 4, 800), (5, 6, 500), (5, 7, 700), (6, 7, 800)])
PATTERN, HEADING = [0, X, X], [0, 1, 5, 2, 6]     # the listing's


def document(cases):
    """Document 01's examples."""
    for a, b, told in (5, 7, 700), (5, 5, 1000), (0, 1, 0):
        cases.symbol_degree(T, a, b, 'degree %d' % told)
    cases.degree(T, [1, 5], [4, 7], 'degree 700')
    cases.degree(T, [1, 5], [5], 'degree 0')
    for cut, told in (500, 'match 500 700'), (600, 'match 600 700'), (601, 'match 700 700'), (700, 'match 700 700'), (701, 'refused 10 0'):
        cases.match(T, PATTERN, HEADING, cut, told)
    cases.match(T, [1, X], [2, 6], 500, 'match 500 500')
    cases.match(T, [1, X], [2, 6], 501, 'refused 9 0')
    cases.match(T, [X + 2], [5], 700, 'match 700 1000')
    cases.match(T, [5], [7], 700, 'match 700 700')
    cases.match(T, [0, 0, X, X, 5], [0, 0, 5, 6, 6], 701, 'refused 9 4')
    cases.match(T, [], HEADING, 600, 'refused 6 0')
    cases.match(T, [0, X], HEADING, 600, 'refused 6 2')
    cases.match(T, [5, 5], HEADING, 600, 'refused 6 1')
    cases.match(T, PATTERN, [X], 600, 'refused 7 0')
    cases.match(T, PATTERN, HEADING, 0, 'refused 5 0')
    cases.match(T, PATTERN, HEADING, 1001, 'refused 5 0')
    cases.match(T, PATTERN, HEADING, 600, 'refused 8 0', sets=39)
    cases.match(T, PATTERN, HEADING, 600, 'match 600 700', sets=40)


# ---- tables

def wide_table():
    """256 symbols: two of arity 1, and constants, of which those at the ends of the words of a set are near each other."""
    ends = [2, 63, 64, 127, 128, 191, 192, 255]
    pairs = [(a, b, 400 + a + b) for a in ends for b in ends if a < b]
    return table_bytes([1, 1] + [0] * 254, [(0, 1, 900)] + pairs)


def widest_table():
    """512 constants, of which those at the ends of the later words of a set are near each other."""
    ends = [255, 256, 319, 320, 383, 384, 447, 448, 511]
    return table_bytes([0] * MOST_SYMBOLS, [(a, b, a + b) for a in ends for b in ends if a < b])


def largest_table():
    """512 constants and 8,192 pairs."""
    pairs = [(a, b, 1 + (7 * a + b) % 999) for a in range(MOST_SYMBOLS) for b in range(a + 1, MOST_SYMBOLS)]
    return table_bytes([0] * MOST_SYMBOLS, pairs[:MOST_PAIRS])


# one for each reason that a table can be refused for
UNSOUND = [(T[:9], 'refused 1 0'), (with_byte(T, 0, 0), 'refused 2 0'), (T[:65], 'refused 1 0'), (T + b'\0', 'refused 1 0'),
           (with_byte(T, 4, 11), 'refused 1 0'), (with_byte(T, 12, 9), 'refused 3 2'), (with_byte(T, 30, 4), 'refused 4 2')]


def tables(cases):
    for a in range(9):
        for b in range(9):
            cases.symbol_degree(T, a, b)
    for a, b, place in (32768, 32768, 0), (65535, 0, 0), (0, 65535, 1), (263, 7, 0), (7, 263, 1), (8, 8, 0), (8, 9, 0), (8, 7, 0), (7, 8, 1):
        cases.symbol_degree(T, a, b, 'refused 13 %d' % place)
    cases.degree(T, [8], [8], 'refused 6 0')                          # 13 is for the degree of two symbol numbers
    cases.degree(T, [5], [8], 'refused 7 0')
    for table, told in UNSOUND + [(b'', 'refused 1 0')]:
        cases.symbol_degree(table, 5, 7, told)
        cases.symbol_degree(table, 65535, 65535, told)                # the table's fault is told before 13
        cases.symbol_degree(table, 0, 65535, told)
        cases.degree(table, [5, 5], [], told)
        cases.match(table, [], [X], 0, told, spans=0, sets=0)
    wide = wide_table()
    for a, b, told in (2, 255, 657), (255, 2, 657), (255, 255, 1000), (127, 128, 655), (1, 0, 900), (3, 4, 0):
        cases.symbol_degree(wide, a, b, 'degree %d' % told)
    for a, b, place in (256, 256, 0), (256, 255, 0), (255, 256, 1):
        cases.symbol_degree(wide, a, b, 'refused 13 %d' % place)
    widest = widest_table()
    for a, b, told in (255, 511, 766), (511, 256, 767), (511, 511, 1000), (319, 320, 639), (510, 511, 0):
        cases.symbol_degree(widest, a, b, 'degree %d' % told)
    for a, b, place in (512, 512, 0), (512, 511, 0), (511, 512, 1):
        cases.symbol_degree(widest, a, b, 'refused 13 %d' % place)
    largest = largest_table()
    last = reference.read_table(largest).pairs[-1]
    cases.symbol_degree(largest, last[1], last[0], 'degree %d' % last[2])
    cases.degree(with_byte(largest, len(largest) - 1, 4), [0], [1], 'refused 4 8191')
    cases.match(largest, [X], [0], 200)


# ---- terms

def sized_term(count):
    """A heading of T with so many nodes, none of them deep."""
    if count == 1:
        return [5]
    if count % 2 == 0:
        return [1] + sized_term(count - 1)
    half = (count - 1) // 2
    return [0] + sized_term(half) + sized_term(count - 1 - half)


def nested(depth, innermost):
    return [1] * (depth - 1) + [innermost]


# lists over T that are no terms, with the place, and those that a variable alone keeps from being headings
NO_TERMS = [([], 0), ([0], 1), ([0, 5], 2), ([5, 5], 1), ([1, 5, 5], 2), ([0, 65535], 1), ([5, 65535], 1), ([0, 1, 5], 3),
            ([8], 0), ([255], 0), ([256], 0), ([32767], 0), ([32800], 0), ([65535], 0), ([0, 5, 8], 2), ([0, 5, 32800], 2),
            (nested(65, 5), 64), (nested(66, 5), 64), ([1] * 64, 64), ([1] * 65, 64), (nested(65, X), 64),
            ([0, 5] * 63 + [0, 5, 5], 127),
            (sized_term(1025), 1024), (sized_term(1023) + [5], 1023), (sized_term(1024)[:1023], 1023), (sized_term(1025)[:1024], 1024),
            ([65535] * 1025, 1024), ([5] * 1025, 1024), ([5] * 1100, 1024), ([65535] * 1024, 0)]
ONLY_PATTERNS = [([X], 0), ([32799], 0), ([0, 5, X], 2), ([1, 32799], 1), (nested(64, X), 63), (sized_term(1024)[:1023] + [X], 1023)]


def terms(cases):
    for nodes, place in NO_TERMS + ONLY_PATTERNS:
        cases.degree(T, nodes, [5], 'refused 6 %d' % place)
        cases.degree(T, [5], nodes, 'refused 7 %d' % place)
        cases.match(T, [X], nodes, 500, 'refused 7 %d' % place)
    for nodes, place in NO_TERMS:
        cases.match(T, nodes, [5], 500, 'refused 6 %d' % place)
        cases.subterm(T, nodes, 0, 'part 0')
    for nodes, _ in ONLY_PATTERNS:
        cases.subterm(T, nodes, len(nodes) - 1, 'part 1 %d' % nodes[-1])
    cases.degree(T, [5, 5], [0], 'refused 6 1')
    cases.degree(T, nested(64, 5), nested(64, 7), 'degree 700')
    cases.degree(T, sized_term(1024), sized_term(1024), 'degree 1000')
    cases.degree(T, sized_term(1024), sized_term(1024)[:-1] + [7], 'degree 700')
    cases.degree(T, sized_term(1024), sized_term(1023), 'degree 0')
    wide = wide_table()
    for node in 256, 32767, 32768, 32799, 32800, 65535:
        cases.degree(wide, [0, node], [0, 255], 'refused 6 1')
        cases.degree(wide, [0, 255], [0, node], 'refused 7 1')
        cases.match(wide, [0, node], [0, 255], 500, 'match 657 1000' if node in (32768, 32799) else 'refused 6 1')
        cases.match(wide, [X], [node], 500, 'refused 7 0')
    cases.match(wide, [255], [255], 1000, 'match 1000 1000')


def subterms(cases):
    for term in HEADING, PATTERN, [X + 31], [5], [1, 1, X], nested(64, X), [0, 0, 1, X, 2, 6, 0, 3, 3, 7, 0, X + 1, X]:
        for index in list(range(len(term) + 2)) + [65535]:
            cases.subterm(T, term, index)
    long = sized_term(1024)
    for index in 0, 1, 512, 1000, 1023, 1024:
        cases.subterm(T, long, index)
    cases.subterm(T, HEADING, 1, 'part 2 1 5')
    cases.subterm(T, [5], 1, 'part 0')
    eight = table_bytes([8, 0, 3], [])
    for index in range(16):
        cases.subterm(eight, [0, 1, X, 2, 1, 1, X + 3, 1, 2, 1, 2, 1, 1, 1, X, 1, 1, X, 1], index)
    for table, _ in UNSOUND:
        cases.subterm(table, HEADING, 1, 'part 0')


def nearest(cases):
    one, two, heading = [2, 6], [4, 5], [1, 5]
    cases.nearer(T, heading, one, two, 'nearer 2 4 5')
    cases.nearer(T, heading, two, one, 'nearer 2 4 5')
    cases.nearer(T, heading, [5], [0, 5, 5], 'nearer 1 5')            # 0 and 0
    cases.nearer(T, heading, [0, 5, 5], [5], 'nearer 3 0 5 5')
    cases.nearer(T, [5], [7], [7], 'nearer 1 7')
    cases.nearer(T, [1, 6], [3, 6], [1, 7], 'nearer 2 1 7')           # 600 and 800
    cases.nearer(T, [1, 1, 5], [2, 1, 5], [1, 1, 6], 'nearer 3 2 1 5')   # 500 and 500
    cases.nearer(T, [1, 1, 5], [1, 1, 6], [2, 1, 5], 'nearer 3 1 1 6')
    cases.nearer(T, heading, [4, 5], heading, 'nearer 2 1 5')
    cases.nearer(T, sized_term(1024), sized_term(1024)[:-1] + [6], sized_term(1024)[:-1] + [7])
    for table, _ in UNSOUND:
        cases.nearer(table, heading, one, two, 'nearer 0')
    for nodes, _ in NO_TERMS[:10] + ONLY_PATTERNS:
        cases.nearer(T, nodes, one, two, 'nearer 0')
        cases.nearer(T, heading, nodes, two, 'nearer 0')
        cases.nearer(T, heading, one, nodes, 'nearer 0')


# ---- matches

def rooms(cases):
    """Buffers that are too short, just long enough and longer; after every kind of answer."""
    for spans, sets, told in ((127, 40, 'refused 8 0'), (128, 39, 'refused 8 0'), (128, 40, 'match 600 700'), (129, 40, 'match 600 700'),
                              (128, 41, 'match 600 700'), (135, SETS - 1, 'match 600 700'), (0, 40, 'refused 8 0'), (128, 0, 'refused 8 0'),
                              (0, 0, 'refused 8 0'), (135, 39, 'refused 8 0'), (127, SETS - 1, 'refused 8 0'), (64, 40, 'refused 8 0'),
                              (128, 20, 'refused 8 0')):
        cases.match(T, PATTERN, HEADING, 600, told, spans, sets)
    for spans, sets in (128, 40), (135, SETS - 1), (0, 0):
        enough = sets >= 40
        cases.match(T[:65], PATTERN, HEADING, 600, 'refused 1 0', spans, sets)
        cases.match(T, PATTERN, HEADING, 0, 'refused 5 0', spans, sets)
        cases.match(T, [5, 5], HEADING, 600, 'refused 6 1', spans, sets)
        cases.match(T, PATTERN, HEADING + [5], 600, 'refused 7 5', spans, sets)
        cases.match(T, [0, X, 2, X], HEADING, 701, 'refused 10 0' if enough else 'refused 8 0', spans, sets)
        cases.match(T, [0, X, 1, X], HEADING, 701, 'refused 9 2' if enough else 'refused 8 0', spans, sets)
        cases.match(T, [0, 1, X + 31, 2, X], HEADING, 500, 'match 500 1000' if enough else 'refused 8 0', spans, sets)
        cases.match(T, HEADING, HEADING, 1000, 'match 1000 1000' if enough else 'refused 8 0', spans, sets)
        cases.match(T, [X], HEADING, 500, 'match 500 1000' if enough else 'refused 8 0', spans, sets)   # as many positions as nodes
        cases.match(T, [0, X + 1, X], HEADING, 500, 'match 500 1000' if enough else 'refused 8 0', spans, sets)


def order(cases):
    """Of several faults the earlier row is told."""
    for table, told in UNSOUND:
        cases.match(table, PATTERN, HEADING, 600, told)
        cases.match(table, [5, 5], [X], 1001, told)
    for cut in 0, 1001, 1002, 32768, 65535:
        cases.match(T, [5, 5], [X], cut, 'refused 5 0', spans=0)
    cases.match(T, [5, 5], [5, X], 600, 'refused 6 1', spans=0)
    cases.match(T, [0, X, X], [5, X], 600, 'refused 7 1', spans=0)
    cases.match(T, [1, 5], [0, 5, 5], 600, 'refused 8 0', sets=23)
    cases.match(T, [1, 5], [0, 5, 5], 600, 'refused 9 0', sets=24)


def clashes(cases):
    cases.match(T, [0, X, 5], [0, 1, 1, 1, 5, 6], 701, 'refused 9 2')
    cases.match(T, [5], [6], 500, 'match 500 500')
    cases.match(T, [5], [6], 501, 'refused 9 0')                      # 7 is near both, which does not count
    cases.match(T, [0, 1, X, 6], [0, 2, 5, 7], 600, 'refused 9 1')
    cases.match(T, [0, 1, X, 6], [0, 3, 5, 5], 600, 'refused 9 3')
    cases.match(T, [0, 5, 5], [0, 6, 6], 600, 'refused 9 1')
    cases.match(T, [1, 5], [5], 1, 'refused 9 0')
    cases.match(T, [5], [1, 5], 1, 'refused 9 0')
    cases.match(T, [0, 0, X, X, 5], [0, 0, 5, 6, 6], 500, 'match 500 500')
    cases.match(T, [0, 1, 1, X, X], [0, 1, 2, 5, 5], 800, 'refused 9 2')
    cases.match(T, [0, 0, X, X, 0, X + 1, 5], [0, 0, 5, 1, 5, 1, 5], 1, 'refused 9 4')   # no form, and after it a clash of arities


def formless(cases):
    two = [0, 0, X + 4, X + 4, 0, X + 2, X + 2]
    cases.match(T, two, [0, 0, 5, 6, 0, 5, 6], 701, 'refused 10 2')   # the least number, not the first that stands there
    cases.match(T, two, [0, 0, 5, 6, 0, 5, 7], 701, 'refused 10 2')
    cases.match(T, two, [0, 0, 5, 7, 0, 5, 6], 700, 'match 700 700')
    cases.match(T, two, [0, 0, 1, 5, 5, 0, 6, 6], 701, 'refused 10 4')
    cases.match(T, [0, 0, X + 31, X + 31, 0, X, X + 1], [0, 0, 5, 1, 5, 0, 6, 6], 1, 'refused 10 31')
    for pattern, heading in (([0, X, X], [0, 5, 1, 5]), ([0, X, X], [0, 1, 5, 5]), ([0, X, X], [0, 0, 5, 5, 0, 5, 1, 5]),
                             ([0, X, X], [0, 0, 1, 5, 5, 0, 5, 1, 5]), ([0, X, X], [0, 1, 1, 5, 1, 5])):
        cases.match(T, pattern, heading, 1, 'refused 10 0')           # unlike shapes
    shared = table_bytes([3] + [0] * 6, [(1, 4, 500), (1, 5, 500), (2, 4, 500), (2, 6, 500), (3, 5, 500), (3, 6, 500)])
    cases.match(shared, [0, X, X, X], [0, 1, 2, 3], 500, 'refused 10 0')   # two by two they share a form, together none
    cases.match(shared, [0, X, X, X], [0, 1, 2, 1], 500, 'match 500 500')
    cases.match(shared, [0, X, X, X + 1], [0, 1, 2, 3], 500, 'match 500 500')
    cases.match(shared, [0, X, X, X], [0, 4, 2, 6], 500, 'match 500 500')


def found(cases):
    for cut in 1, 499, 500, 501, 599, 600, 601, 699, 700, 701, 1000:
        cases.match(T, PATTERN, HEADING, cut)
        cases.match(T, [0, X + 1, X], [0, 1, 5, 6], cut)              # packed by first standing, not by number
        cases.match(T, [0, X, X], [0, 5, 5], cut)
    cases.match(T, [0, X, X], [0, 5, 6], 1, 'match 500 700')
    cases.match(T, PATTERN, [0, 1, 5, 1, 6], 500, 'match 500 700')
    cases.match(T, [0, 0, X + 9, X + 3, 0, X + 3, X + 9], [0, 0, 1, 5, 6, 0, 7, 2, 6], 500)
    cases.match(T, [0, X, 0, X + 30, X], [0, 1, 5, 0, 0, 6, 7, 4, 7], 600)
    cases.match(T, nested(64, X), nested(64, 5), 700, 'match 700 1000')
    cases.match(T, [X], nested(64, 5), 500)
    alone = table_bytes([0], [])
    cases.match(alone, [X], [0], 1, 'match 1000 1000')
    wide = wide_table()
    for cut in 1, 465, 466, 527, 592, 593, 655, 656, 657, 658, 719, 720, 846, 847, 848, 1000:
        for symbol in 2, 64, 128, 255:
            cases.match(wide, [X], [symbol], cut)
    cases.match(wide, [0, X], [1, 127], 600, 'match 655 900')
    widest = widest_table()
    for cut in 1, 575, 576, 639, 640, 766, 767, 768, 895, 896, 958, 959, 960, 1000:
        for symbol in 0, 255, 256, 320, 448, 511:
            cases.match(widest, [X], [symbol], cut)
    cases.match(widest, [X], [512], 1, 'refused 7 0')


def own_degrees(cases):
    """Each variable's own degrees, told by hand: with what faces it, whatever faces the pattern's symbols and the other variables."""
    for cut, pattern, heading, told, own in (
            (500, [1, X], [2, 6], 'match 500 500', {0: (500, 1000)}),              # 1 faces 2 with 500; x0 is strong
            (600, PATTERN, HEADING, 'match 600 700', {0: (600, 700)}),
            (601, PATTERN, HEADING, 'match 700 700', {0: (700, 700)}),
            (600, [0, 1, X, X + 1], [0, 3, 6, 5], 'match 600 600', {0: (800, 1000), 1: (700, 1000)}),
            (600, [0, 1, X + 1, X], [0, 3, 6, 5], 'match 600 600', {0: (700, 1000), 1: (800, 1000)}),
            (600, [0, X, X + 1], [0, 5, 1, 6], 'match 600 1000', {0: (700, 1000), 1: (600, 1000)}),
            (601, [0, X, X + 1], [0, 5, 1, 6], 'match 700 1000', {0: (700, 1000), 1: (700, 1000)}),
            (701, [0, X, X + 1], [0, 5, 1, 6], 'match 800 1000', {0: (1000, 1000), 1: (800, 1000)}),
            (500, [0, X, 0, X, X + 31], [0, 5, 0, 6, 7], 'match 500 700', {0: (500, 700), 31: (700, 1000)}),
            (501, [0, X, 0, X, X + 31], [0, 5, 0, 6, 7], 'match 700 700', {0: (700, 700), 31: (700, 1000)}),
            (500, [0, X + 2, 0, X + 1, X + 2], [0, 5, 0, 7, 5], 'match 500 1000', {2: (500, 1000), 1: (700, 1000)}),
            (500, [0, X, 0, X, X], [0, 1, 6, 0, 2, 6, 4, 7], 'match 500 700', {0: (500, 700)}),
            (600, [0, X, 0, X, X], [0, 1, 6, 0, 2, 6, 4, 7], 'match 700 700', {0: (700, 700)})):
        assert reference.match(T, pattern, heading, cut).own == own, (cut, pattern, heading)
        cases.match(T, pattern, heading, cut, told)
    cases.match(T, [0, X + 1, 0, X, X], [0, 5, 0, 5, 6], 701, 'refused 10 0')      # x1 was packed before, with its degrees
    cases.match(T, [5], [7], 700, 'match 700 700')


def spread_table():
    """A symbol of arity 8, 255 constants and as many pairs as there may be, spread over all that could be listed. A constant is the lower
    of some of its pairs and the higher of the others."""
    pairs = [(a, b) for a in range(1, 256) for b in range(a + 1, 256)]
    return [8] + [0] * 255, [(*pairs[len(pairs) * k // 8192], 1 + 35 * k % 999) for k in range(8192)]


def walked(symbols, pairs, cut):
    """Each symbol's near forms, by one walk over the pairs; the reference asks for one degree after the other."""
    near = [{symbol} for symbol in range(symbols)]
    for lower, higher, degree in pairs:
        if degree >= cut:
            near[lower].add(higher)
            near[higher].add(lower)
    return near


def gathered(cases):
    """Near forms, from both ends of each pair: of symbols that are the lower of their pairs, the higher, now one and now the other."""
    for symbol, cut, lowest in ((5, 1, 500), (5, 500, 500), (5, 501, 700), (5, 700, 700), (5, 701, 1000), (6, 500, 500), (6, 501, 800),
                                (6, 800, 800), (6, 801, 1000), (7, 700, 700), (7, 701, 800), (7, 800, 800), (7, 801, 1000)):
        cases.match(T, [X], [symbol], cut, 'match %d 1000' % lowest)
    for cut in 500, 501, 600, 601, 700, 701, 800, 801:
        for symbol in 1, 2, 3, 4:
            cases.match(T, [X], [symbol, 5], cut)
    arities, pairs = spread_table()
    leaves = [1 + i % 255 for i in range(260)]                        # every constant stands in the heading
    heading = [node for i in range(0, 259, 7) for node in [0] + leaves[i:i + 7]] + leaves[259:]
    table = table_bytes(arities, pairs)
    for cut in 1, 500:
        near = walked(256, pairs, cut)
        assert reference.match(table, [X], heading, cut).sets[0] == [sorted(near[node]) for node in heading]
        cases.match(table, [X], heading, cut, 'match %d 1000' % cut)


def loses_nothing(before, after, pattern, heading, cut):
    """Holds the two answers of the reference against each other, the second over a richer table."""
    try:
        first = reference.match(before, pattern, heading, cut)
    except reference.Refused:
        return
    then = reference.match(after, pattern, heading, cut)
    assert then.highest >= first.highest and list(then.sets) == list(first.sets)
    for v, positions in first.sets.items():
        assert then.own[v][1] >= first.own[v][1] and len(then.sets[v]) == len(positions)
        assert all(set(old) <= set(new) for old, new in zip(positions, then.sets[v]))


def richer(cases):
    """One question of two tables: with pairs added or degrees raised, nothing is lost that was found; with other arities it may be."""
    table = reference.read_table(T)

    def listing(*raised):
        degrees = {(a, b): degree for a, b, degree in table.pairs} | {(a, b): degree for a, b, degree in raised}
        return table_bytes(table.arities, [pair + (degrees[pair],) for pair in sorted(degrees)])
    apart, near, nearer = (table_bytes([0, 0], pairs) for pairs in ([], [(0, 1, 5)], [(0, 1, 7)]))
    for before, after, pattern, heading, cut, told, told_then in (
            (apart, near, [X], [0], 1, 'match 1000 1000', 'match 5 1000'),        # the lowest falls
            (apart, near, [1], [0], 5, 'refused 9 0', 'match 5 5'),
            (near, nearer, [1], [0], 5, 'match 5 5', 'match 7 7'),                # the highest rises
            (near, nearer, [X], [0], 5, 'match 5 1000', 'match 7 1000'),
            (near, nearer, [X], [0], 6, 'match 1000 1000', 'match 7 1000'),
            (T, listing((3, 4, 1)), PATTERN, HEADING, 600, 'match 600 700', 'match 600 700'),
            (T, listing((1, 2, 650)), PATTERN, HEADING, 600, 'match 600 700', 'match 600 700'),      # 1 and 2 come in, as near as the others
            (T, listing((1, 3, 900), (2, 3, 900), (5, 7, 800)), PATTERN, HEADING, 600, 'match 600 700', 'match 700 800'),
            (T, listing((1, 2, 999), (5, 6, 900)), PATTERN, HEADING, 700, 'match 700 700', 'match 700 900'),
            (T, listing((1, 2, 999), (5, 6, 900)), PATTERN, HEADING, 701, 'refused 10 0', 'match 900 900')):
        loses_nothing(before, after, pattern, heading, cut)
        cases.match(before, pattern, heading, cut, told)
        cases.match(after, pattern, heading, cut, told_then)
    grown = [table_bytes(table.arities, table.pairs[:count]) for count in range(9)]       # a pair more at a time
    for pattern, heading, cut in (PATTERN, HEADING, 500), (PATTERN, HEADING, 600), ([X], HEADING, 500), ([0, X, X + 1], [0, 1, 7, 4, 6], 700):
        for before, after in zip(grown, grown[1:]):
            loses_nothing(before, after, pattern, heading, cut)
        for each in grown:
            cases.match(each, pattern, heading, cut)
    cases.match(table_bytes([2, 1, 0, 0], []), [0, X, 3], [0, 1, 2, 3], 1000, 'match 1000 1000')
    cases.match(table_bytes([2, 0, 1, 0], []), [0, X, 3], [0, 1, 2, 3], 1000, 'refused 9 2')      # 3 meets 2 now


def same(cases):
    """The highest degree that may be listed, and cut 1000, at which only the same will do."""
    cousins = table_bytes([2, 0, 0, 0], [(1, 2, 999), (2, 3, 999)])
    for cut in 1, 999:
        cases.match(cousins, [X], [1], cut, 'match 999 1000')
        cases.match(cousins, [1], [2], cut, 'match 999 999')
        cases.match(cousins, [0, X, X], [0, 1, 3], cut, 'match 999 999')
    for heading in [1], [2], [0, 1, 2], [0, 0, 3, 1, 2]:
        cases.match(cousins, heading, heading, 1000, 'match 1000 1000')
        cases.match(cousins, [X], heading, 1000, 'match 1000 1000')
    cases.match(cousins, [1], [2], 1000, 'refused 9 0')
    cases.match(cousins, [0, X, X], [0, 2, 2], 1000, 'match 1000 1000')
    cases.match(cousins, [0, X, X], [0, 1, 2], 1000, 'refused 10 0')
    for i, near in (1, 2), (2, 7), (3, 4), (4, 5):                    # refused where the two lists first differ
        cases.match(T, HEADING[:i] + [near] + HEADING[i + 1:], HEADING, 1000, 'refused 9 %d' % i)
    cases.match(T, [0, 2, 6, 1, 5], HEADING, 1000, 'refused 9 1')
    cases.match(T, [0, 1, 7, 2, 5], HEADING, 1000, 'refused 9 2')
    cases.match(T, [0, 5, 2, 6], HEADING, 1000, 'refused 9 1')
    cases.match(T, [0, 1, 5, 1, 1, 6], HEADING, 1000, 'refused 9 3')
    for a, b, told in (1, 2, 999), (2, 2, 1000), (1, 3, 0):
        cases.symbol_degree(cousins, a, b, 'degree %d' % told)
    cases.degree(cousins, [0, 1, 2], [0, 2, 3], 'degree 999')
    cases.degree(cousins, [0, 1, 2], [0, 1, 2], 'degree 1000')
    for degree, told in (999, None), (1000, 'refused 4 1'), (1001, 'refused 4 1'), (65535, 'refused 4 1'):
        listed = table_bytes([2, 0, 0, 0], [(1, 2, 999), (1, 3, degree), (2, 3, 1000 if told else 999)])
        cases.match(listed, [X], [1], 1, told or 'match 999 1000')
        cases.symbol_degree(listed, 1, 3, told or 'degree 999')
        cases.degree(listed, [1], [3], told or 'degree 999')


def many(cases):
    """All 32 variables, and the longest lists."""
    spread = table_bytes([4, 8, 0, 0, 0, 4], [(0, 5, 950), (2, 3, 600), (3, 4, 800)])
    constants = [2 + i * i % 3 for i in range(32)]

    def over(leaves):
        return [0] + [node for i in range(0, 32, 8) for node in [1] + leaves[i:i + 8]]
    for variables in list(range(32)), list(range(31, -1, -1)), [(5 * v + 7) % 32 for v in range(32)], [v // 2 for v in range(32)]:
        for cut in 500, 600, 601, 801:
            cases.match(spread, over([X + v for v in variables]), [5] + over(constants)[1:], cut)
    for count in 63, 64, 65, 66, 1023, 1024:                          # one variable at every constant, and many
        shape = sized_term(count)
        cases.match(T, [X if node == 5 else node for node in shape], shape, 700, 'match 700 1000')
        cases.match(T, [X + i % 32 if node == 5 else node for i, node in enumerate(shape)],
                    [5 + i % 32 % 3 if node == 5 else node for i, node in enumerate(shape)], 800, 'match 800 1000')
    long = sized_term(1024)
    cases.match(T, [X], long, 500)
    cases.match(T, [X], long, 1000, spans=135, sets=SETS - 1)
    cases.match(T, long, long, 1000, 'match 1000 1000')
    cases.match(T, long[:-1] + [X + 5], long, 700, 'match 700 1000')
    cases.match(T, long[:-1] + [6], long, 501, 'refused 9 1023')
    cases.match(T, [X], long, 500, 'refused 8 0', sets=WORDS * 1024 - 1)
    half = sized_term(511)
    cases.match(T, [1, 0, X, X], [1, 0] + half + half, 600)
    cases.match(T, [1, 0, X, X], [1, 0] + half + half[:-1] + [6], 600, 'match 700 700')
    cases.match(T, [1, 0, X, X], [1, 0] + half + half[:-1] + [6], 701, 'refused 10 0')
    cases.match(T, [1, 0, X, X], [1, 0] + half + [0] + half[2:] + [5], 500)


# ---- the last symbols, and answers saved before there were so many

def last_symbols(cases):
    """Nodes 511 and 512 in tables of 512 symbols and of fewer."""
    full = table_bytes([0] * 511 + [1], [(0, 510, 700), (255, 256, 800)])
    less = table_bytes([0] * 510 + [1], [(0, 509, 700), (255, 256, 800)])
    cases.match(full, [511, X], [511, 510], 700, 'match 700 1000')
    cases.match(full, [511, X], [511, 510], 701, 'match 1000 1000')
    cases.match(full, [511, 0], [511, 510], 700, 'match 700 700')
    cases.match(full, [X], [511, 0], 1, 'match 700 1000')
    cases.match(full, [512], [0], 1, 'refused 6 0')
    cases.match(full, [511, 512], [0], 1, 'refused 6 1')
    cases.match(full, [X], [512], 1, 'refused 7 0')
    cases.match(full, [X], [511, 512], 1, 'refused 7 1')
    cases.match(less, [X], [511], 1, 'refused 7 0')
    cases.match(less, [511], [0], 1, 'refused 6 0')
    cases.match(less, [X], [510, 0], 1, 'match 700 1000')
    cases.degree(full, [511, 510], [511, 0], 'degree 700')
    cases.degree(full, [511, 512], [511, 0], 'refused 6 1')
    cases.degree(less, [510, 0], [511, 0], 'refused 7 0')
    cases.subterm(full, [511, 510], 1, 'part 1 510')
    cases.subterm(full, [511, 512], 0, 'part 0')
    cases.nearer(full, [510], [1], [0], 'nearer 1 0')
    cases.nearer(full, [512], [1], [0], 'nearer 0')
    for sets, told in (15, 'refused 8 0'), (16, 'match 700 1000'):
        cases.match(full, [511, X], [511, 510], 700, told, sets=sets)


def saved_words(match, positions):
    """The sets as they were packed when a set had four words: each position's first four of today."""
    today = match.words(WORDS * positions)
    assert not any(word for at in range(0, len(today), WORDS) for word in today[at + SAVED:at + WORDS])
    return [word for at in range(0, len(today), WORDS) for word in today[at:at + SAVED]]


def behind(at):
    """What a longer output holds from there on: what it held."""
    return '%d-%d:%d' % (at, SETS - 1, GUARD)


def saved(cases):
    listing = [24, 0, 0, 0, 128, 0, 0, 0] + [0] * 12
    cases.widen(listing, 40, 'written 40 output 0:24 8:128 ' + behind(40))
    cases.widen(listing, 43, 'written 40 output 0:24 8:128 ' + behind(40))
    for room in 39, 20, 0:
        cases.widen(listing, room, 'refused 8 0 output ' + behind(0))
    for count in 1, 2, 3, 5, 6, 7, 17, 18, 19, 21:
        for room in 2 * count, 8200, 2 * count - 1:
            cases.widen([7] * count, room, 'refused 8 0 output ' + behind(0))
    for room in 0, 1, 8:
        cases.widen([], room, 'written 0 output ' + behind(0))
    top = (1 << 64) - 1
    cases.widen([top] * 4, 8, 'written 8 output 0-3:%d ' % top + behind(8))
    cases.widen([top] * 8, 17, 'written 16 output 0-3:%d 8-11:%d ' % (top, top) + behind(16))
    cases.widen([1, 1 << 63, 3, 1 << 32], 9, 'written 8 output 0:1 1:%d 2:3 3:%d ' % (1 << 63, 1 << 32) + behind(8))
    cases.widen(list(range(1, 41)), 80)
    cases.widen([5] * 4096, 8192)
    cases.widen([5] * 4096, 8191, 'refused 8 0 output ' + behind(0))
    cases.widen([5] * 4097, 8200, 'refused 8 0 output ' + behind(0))
    # a saved answer, converted, is today's
    for table, pattern, heading, cut in ((T, PATTERN, HEADING, 600), (T, PATTERN, HEADING, 500), (wide_table(), [0, X], [1, 127], 600),
                                         (wide_table(), [X], [255], 1), (T, [X], sized_term(200), 500)):
        found = reference.match(table, pattern, heading, cut)
        words, today = saved_words(found, len(heading)), found.words(WORDS * len(heading))
        assert reference.widen(words, len(today)) == today
        cases.widen(words, len(today))
        cases.match(table, pattern, heading, cut)


GROUPS = [document, tables, terms, subterms, nearest, rooms, order, clashes, formless, found, own_degrees, gathered, richer, same, many, last_symbols, saved]
