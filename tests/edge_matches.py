"""Questions that get as far as the match: clashes and variables without a form at every kind of place, and answers at the limits.

A group adds its questions to the collector that it is given, with the answer, or its first line, where the choice of the question tells it.
"""
from chosen_cases import T, largest_table, nested, sized_term
from drawing import X
from reference import table_bytes


# ---- 9

def clashing(heading, at):
    """A heading of T with another symbol at that index, which is near at 500 and no more."""
    return heading[:at] + [{5: 6, 1: 2}[heading[at]]] + heading[at + 1:]


def clashes(asked):
    for size in 2, 5, 12, 64, 1023, 1024:
        heading = sized_term(size)
        places = [at for at in range(size) if heading[at]]
        if size > 64:
            places = places[:3] + places[len(places) // 2:][:2] + places[-3:]
        for at in places:
            pattern = clashing(heading, at)
            asked.match(T, pattern, heading, 501, 'refused 9 %d' % at)
            asked.match(T, pattern, heading, 500, 'match 500 500')
            asked.match(T, heading, pattern, 501, 'refused 9 %d' % at)
            asked.match(T, clashing(pattern, places[-1]) if at != places[-1] else pattern, heading, 501, 'refused 9 %d' % at)
            asked.match(T, [0, X] + pattern, [0, 1, 1, 5] + heading, 501, None if size > 1000 else 'refused 9 %d' % (at + 2))
            if heading[at] == 5 and size != 1024:  # another arity, here and there
                asked.match(T, heading[:at] + [4, 5] + heading[at + 1:], heading, 1, 'refused 9 %d' % at)
                asked.match(T, heading, heading[:at] + [4, 5] + heading[at + 1:], 1, 'refused 9 %d' % at)
    for depth in 2, 63, 64:
        asked.match(T, nested(depth, 6), nested(depth, 5), 501, 'refused 9 %d' % (depth - 1))
        asked.match(T, nested(depth, X), nested(depth - 1, 5), 1, 'refused 9 %d' % (depth - 2))
        asked.match(T, nested(depth, 6), [2] * (depth - 1) + [5], 501, 'refused 9 0')


# ---- 10

EIGHTS = table_bytes([8, 0, 0, 0, 0], [(1, 2, 500), (2, 3, 600)])   # 1 and 3 share 2; 4 is near none


def over(leaves):
    """64 leaves under symbols of arity 8."""
    return [0] + [node for i in range(0, 64, 8) for node in [0] + leaves[i:i + 8]]


def formless(asked):
    """Each variable stands twice, and first in falling order; a heading gives some of them no common form."""
    standing = over([X + v for v in range(31, -1, -1)] + [X + (7 * v + 3) % 32 for v in range(32)])

    def heading(lost):
        return over([1] * 32 + [4 if (7 * v + 3) % 32 in lost else 3 for v in range(32)])

    for v in range(32):
        asked.match(EIGHTS, standing, heading({v}), 500, 'refused 10 %d' % v)
        asked.match(EIGHTS, standing, heading({v, 31}), 500, 'refused 10 %d' % v)
        asked.match(EIGHTS, standing, heading({v, (v + 13) % 32}), 500, 'refused 10 %d' % min(v, (v + 13) % 32))
        clash = [1 if node == X + v else node for node in standing]
        asked.match(EIGHTS, clash, heading({v, v // 2}), 500, 'refused 9 %d' % (len(clash) - 1 - clash[::-1].index(1)))
    asked.match(EIGHTS, standing, heading(set(range(32))), 500, 'refused 10 0')
    asked.match(EIGHTS, standing, heading(set()), 500, 'match 500 500')
    asked.match(EIGHTS, standing, heading(set()), 501, 'refused 10 0')
    for size in 2, 64, 511:                       # the common form fails at one position alone
        form = sized_term(size)
        for at in [i for i in range(size) if form[i]][::max(1, size // 5)] + [size - 1]:
            other = clashing(form, at)
            asked.match(T, [0, X + 9, X + 9], [0] + form + other, 701, 'refused 10 9')
            asked.match(T, [0, X + 9, X + 9], [0] + form + other, 501, 'match 600 700' if 1 in form else 'match 700 700')
    for depth in 2, 63:
        for inner in 6, 7:
            asked.match(T, [0, X + 5, X + 5], [0] + nested(depth, 5) + nested(depth, inner), 701, 'refused 10 5')


# ---- the limits of an answer

def variables(asked):
    """All 32 variables, standing once or more often, over subterms of every size."""
    for shift, step in (0, 1), (31, 31), (5, 7), (3, 2), (0, 4), (9, 0):
        names = [X + (shift + step * i) % 32 for i in range(64)]
        for cut in 500, 501, 600, 601:
            asked.match(EIGHTS, over(names), over([1 + i * i % 3 for i in range(64)]), cut)
            asked.match(EIGHTS, over(names), over([2] * 64), cut)
        for extra in range(9):
            subterms = [[0] + [1 + (i + j) % 3 for j in range(8)] if i < extra * 7 else [2] for i in range(64)]
            asked.match(EIGHTS, over(names), [0] + [n for i in range(0, 64, 8) for n in [0] + sum(subterms[i:i + 8], [])], 500)


def positions(asked):
    """Variables over all of the heading's nodes, over all but the first, over none; to the greatest size and depth."""
    for size in 1, 2, 63, 64, 255, 256, 1023, 1024:
        heading = sized_term(size)
        asked.match(T, [X + size % 32], heading, 1000, 'match 1000 1000')
        asked.match(T, [X + size % 32], heading, 700, 'match 700 1000')
        asked.match(T, heading, heading, 1000, 'match 1000 1000')
        if size > 1:
            parts = [X, X + 31] if heading[0] == 0 else [X + 31]
            asked.match(T, heading[:1] + parts, heading, 700, 'match 700 1000')
    for depth in 1, 2, 63, 64:
        asked.match(T, [X], nested(depth, 5), 500, 'match 500 1000')
        asked.match(T, nested(depth, X + 31), nested(depth, 5), 700, 'match 700 1000')
        asked.match(T, nested(depth, 7), nested(depth, 5), 700, 'match 700 700')
    ones = table_bytes([8, 1] + [0] * 6, [])
    for arity_8 in range(0, 128, 9):
        asked.match(ones, [X + 1], leafy(arity_8, 0, [3 + i % 5 for i in range(1 + 7 * arity_8)]), 1000, 'match 1000 1000')


def leafy(eights, sevens, leaves):
    """A tree of symbols 0 of arity 8 and 1 of arity 7, the first ones nearest to the root, over these leaves."""
    rest, arities = iter(leaves), [8] * eights + [7] * sevens
    below = [[] for _ in arities]
    free = [(k, slot) for k, arity in enumerate(arities) for slot in range(arity)]
    for child, (parent, _) in zip(range(1, len(arities)), free):
        below[parent].append(child)

    def written(k):
        room = arities[k] - len(below[k])
        subterms = [n for child in below[k] for n in written(child)]
        return [0 if arities[k] == 8 else 1] + subterms + [next(rest) for _ in range(room)]
    return written(0) if arities else list(leaves)


def star(arities, rays, degrees):
    """The last symbol is near all of these, and they to no other."""
    return table_bytes(arities, [(s, len(arities) - 1, degrees[s % len(degrees)]) for s in rays])


def longest(asked):
    """The longest answers: nearly all of 1,024 nodes have arity 1, and each of their positions has 510 symbols. Seventeen constants below
    them, each with a variable to print, and four symbols above are the fewest that the depth allows."""
    def over(parts):
        return [1] + sum(parts[:2], []) + [node for i in (2, 7, 12) for node in [1] + sum(parts[i:i + 5], [])]
    heading = over([[511] * ones + [0] for ones in [62] * 2 + [61] * 14 + [25]])
    pattern = over([[X + v] for v in range(15, 32)])
    asked.match(star([0, 5] + [1] * 510, range(2, 511), [999]), pattern, heading, 999, 'match 999 1000')
    leaves = star([8, 7] + [0] * 254, range(2, 255), range(1, 254))
    for cut in 1, 200, 240, 253, 254:
        asked.match(leaves, [1] + [X + 31] * 7, [1] + [255] * 7, cut)
    for cut in 240, 253, 254:
        asked.match(leaves, [X], leafy(127, 1, [255] * 896), cut)


def greatest(asked):
    """The longest question that is a match: 1,024 nodes twice and 8,192 pairs."""
    pairs = [(a, b, 1 + (7 * a + b) % 999) for a in range(2, 256) for b in range(a + 1, 256)]
    leaves = [2 + (5 * i) % 254 for i in range(896)]
    pattern = leafy(127, 1, [X + i // 28 if i % 28 == 0 else leaf for i, leaf in enumerate(leaves)])
    asked.match(table_bytes([8, 7] + [0] * 254, pairs[:8192]), pattern, leafy(127, 1, leaves), 1)


def wide(asked):
    """256 and 512 symbols, in sets of every size, and 8,192 pairs."""
    hub = table_bytes([0] * 256, [(0, s, 1 + 3 * s) for s in range(1, 256)])
    for cut in 1, 4, 5, 189, 190, 192, 193, 195, 196, 382, 385, 388, 574, 577, 580, 763, 766, 767, 1000:
        asked.match(hub, [X + 7], [0], cut)
        asked.match(hub, [X + 7], [cut % 256], cut)
    for s in 1, 62, 63, 64, 65, 127, 128, 191, 192, 254, 255:
        asked.match(hub, [s], [0], 1 + 3 * s, 'match %d %d' % (1 + 3 * s, 1 + 3 * s))
        asked.match(hub, [0], [s], 2 + 3 * s, 'refused 9 0')
    hub = table_bytes([0] * 512, [(0, s, 1 + s) for s in range(1, 512)])
    for cut in 1, 2, 3, 64, 65, 256, 257, 258, 320, 321, 449, 511, 512, 513:
        asked.match(hub, [X + 7], [0], cut)
        asked.match(hub, [X + 7], [cut % 512], cut)
    for s in 255, 256, 257, 319, 320, 510, 511:
        asked.match(hub, [s], [0], 1 + s, 'match %d %d' % (1 + s, 1 + s))
        asked.match(hub, [0], [s], 2 + s, 'refused 9 0')
    most = largest_table()
    for heading, cut in (0, 1), (31, 1000), (255, 990), (511, 990):
        asked.match(most, [X], [heading], cut)


GROUPS = [clashes, formless, variables, positions, longest, greatest, wide]
