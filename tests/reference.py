"""The rules of headings and tables in plain Python, for test vectors.

Written from document 01 alone: terms are trees, every definition is spelled out, and nothing is taken over from the program under
test. Slow on purpose. A refusal is the exception Refused with its number and place.
"""


# the most symbols and pairs of a table, and the words of a set, 64 symbols to each
MOST_SYMBOLS, MOST_PAIRS, WORDS = 512, 8192, 8


class Refused(Exception):
    def __init__(self, number, place):
        super().__init__(number, place)
        self.number, self.place = number, place


# ---- tables

class Table:
    def __init__(self, arities, pairs):
        self.arities, self.pairs = list(arities), list(pairs)
        self.listed = {}
        for lower, higher, degree in pairs:
            self.listed[lower, higher] = self.listed[higher, lower] = degree

    def degree(self, a, b):
        """The degree of two symbols of the table, in thousandths."""
        return 1000 if a == b else self.listed.get((a, b), 0)


def number(data, at):
    return data[at] | data[at + 1] << 8


def check_counts(symbols, pairs):
    if not 1 <= symbols <= MOST_SYMBOLS or not 0 <= pairs <= MOST_PAIRS:
        raise Refused(2, 0)


def check_arities(arities):
    for symbol, arity in enumerate(arities):
        if arity > 8:
            raise Refused(3, symbol)


def check_pairs(arities, pairs):
    before = None
    for index, (lower, higher, degree) in enumerate(pairs):
        sound = lower < higher < len(arities) and arities[lower] == arities[higher] and 1 <= degree <= 999
        if not sound or before is not None and (lower, higher) <= before:
            raise Refused(4, index)
        before = (lower, higher)


def read_table(data):
    if len(data) < 10:
        raise Refused(1, 0)
    symbols, count, at_arities, at_pairs, total = (number(data, i) for i in range(0, 10, 2))
    check_counts(symbols, count)
    if (at_arities, at_pairs, total) != (10, 10 + symbols, 10 + symbols + 6 * count) or total != len(data):
        raise Refused(1, 0)
    arities = list(data[10:10 + symbols])
    check_arities(arities)
    pairs = [tuple(number(data, i + 2 * j) for j in range(3)) for i in range(10 + symbols, total, 6)]
    check_pairs(arities, pairs)
    return Table(arities, pairs)


def read_back(listed, index):
    """The arity of a symbol, or the pair at an index, of a table's list."""
    if index >= len(listed):
        raise Refused(14, 0)
    return listed[index]


def symbol_degree(table, *symbols):
    """The degree of two numbers that should be symbols of the table."""
    for place, symbol in enumerate(symbols):
        if symbol >= len(table.arities):
            raise Refused(13, place)
    return table.degree(*symbols)


def two_bytes(n):
    return bytes([n % 256, n // 256])


def table_bytes(arities, pairs):
    """The file of these arities and pairs, whether they are sound or not."""
    symbols, count = len(arities), len(pairs)
    header = (symbols, count, 10, 10 + symbols, 10 + symbols + 6 * count)
    words = [n for pair in pairs for n in pair]
    return b''.join(two_bytes(n % 65536) for n in header) + bytes(arities) + b''.join(two_bytes(n) for n in words)


def write_table(arities, pairs, room):
    """The file, for an output of that many bytes."""
    check_counts(len(arities), len(pairs))
    check_arities(arities)
    check_pairs(arities, pairs)
    data = table_bytes(arities, pairs)
    if room < len(data):
        raise Refused(8, 0)
    return data


# ---- terms: ('variable', v) or (symbol, [arguments])

VARIABLE = 'variable'


def fault(table, nodes, variables):
    """The place of the list's first fault, None if it is a term."""
    if len(nodes) > 1024:
        return 1024
    open_arguments = [1]                          # how many terms are still to come, at each depth
    for i, node in enumerate(nodes):
        while open_arguments and open_arguments[-1] == 0:
            open_arguments.pop()
        if not open_arguments:
            return i                              # the term had ended
        symbol = node < len(table.arities)
        if not symbol and not (variables and 32768 <= node <= 32799):
            return i
        if len(open_arguments) > 64:
            return i
        open_arguments[-1] -= 1
        open_arguments.append(table.arities[node] if symbol else 0)
    while open_arguments and open_arguments[-1] == 0:
        open_arguments.pop()
    return len(nodes) if open_arguments else None


def tree(table, nodes):
    """The term that a sound list writes."""
    def take(i):
        node = nodes[i]
        if node >= 32768:
            return (VARIABLE, node - 32768), i + 1
        arguments, i = [], i + 1
        for _ in range(table.arities[node]):
            argument, i = take(i)
            arguments.append(argument)
        return (node, arguments), i
    return take(0)[0]


def preorder(term):
    return [term[0]] + [n for argument in term[1] for n in preorder(argument)]


def read_term(table, nodes, variables, refusal):
    place = fault(table, nodes, variables)
    if place is not None:
        raise Refused(refusal, place)
    return tree(table, nodes)


def degree(table, t, u):
    """The published degree of two ground terms."""
    (f, ts), (g, us) = t, u
    heads = table.degree(f, g)
    if len(ts) != len(us) or heads == 0:
        return heads
    return min([heads] + [degree(table, a, b) for a, b in zip(ts, us)])


def heading_degree(data, one, two):
    table = read_table(data)
    return degree(table, read_term(table, one, False, 6), read_term(table, two, False, 7))


def subterm(data, nodes, index):
    """Start and length of the part that is handed back."""
    try:
        table = read_table(data)
        read_term(table, nodes, True, 6)
    except Refused:
        return 0, 0
    if index >= len(nodes):
        return 0, 0
    wanted, at = 1, index
    while wanted:
        wanted += (table.arities[nodes[at]] if nodes[at] < 32768 else 0) - 1
        at += 1
    return index, at - index


def nearer(data, heading, one, two):
    """0 where something is refused, else 1 or 2 for the candidate."""
    try:
        table = read_table(data)
        h, t, u = (read_term(table, nodes, False, 7) for nodes in (heading, one, two))
    except Refused:
        return 0
    return 2 if degree(table, h, u) > degree(table, h, t) else 1


# ---- the match

class Match:
    def __init__(self, lowest, highest, sets, own):
        self.lowest, self.highest = lowest, highest
        self.sets = sets                          # variable, in the order of first standing -> a list of sets, by position
        self.own = own                            # variable -> its own lowest and highest degree

    def spans(self, room):
        out, start = [0] * room, 0
        for v, positions in self.sets.items():
            out[4 * v:4 * v + 4] = [start, len(positions), *self.own[v]]
            start += len(positions)
        return out

    def words(self, room):
        out, at = [0] * room, 0
        for positions in self.sets.values():
            for symbols in positions:
                for s in symbols:
                    out[at + s // 64] |= 1 << s % 64
                at += WORDS
        return out


def facing(table, pattern, heading):
    """In preorder of the pattern: all (index, symbol, symbol that faces it), and all (variable, subterm that faces it)."""
    symbols, variables, index = [], [], 0

    def go(p, h):
        nonlocal index
        here, index = index, index + 1
        if p[0] == VARIABLE:
            variables.append((p[1], h))
            return
        symbols.append((here, p[0], h[0]))
        if len(p[1]) == len(h[1]):
            for a, b in zip(p[1], h[1]):
                go(a, b)
        else:
            index += sum(len(preorder_pattern(a)) for a in p[1])
    go(pattern, heading)
    return symbols, variables


def preorder_pattern(p):
    return [p] if p[0] == VARIABLE else [p] + [q for a in p[1] for q in preorder_pattern(a)]


def common(table, cut, terms):
    """The sets of the terms that reach the cut with all of these, in preorder of the shared shape; None if there is no such term."""
    heads = [s for s in range(len(table.arities)) if all(table.degree(s, t[0]) >= cut for t in terms)]
    if not heads:
        return None
    found = [heads]
    for i in range(table.arities[heads[0]]):
        below = common(table, cut, [t[1][i] for t in terms])
        if below is None:
            return None
        found += below
    return found


def match(data, pattern, heading, cut, spans_room=128, sets_room=None):
    table = read_table(data)
    if not 1 <= cut <= 1000:
        raise Refused(5, 0)
    p = read_term(table, pattern, True, 6)
    h = read_term(table, heading, False, 7)
    if sets_room is None:
        sets_room = WORDS * len(heading)
    if spans_room < 128 or sets_room < WORDS * len(heading):
        raise Refused(8, 0)
    symbols, variables = facing(table, p, h)
    for index, f, g in symbols:
        if table.degree(f, g) < cut:
            raise Refused(9, index)
    faced = {}
    for v, t in variables:
        faced.setdefault(v, []).append(t)
    sets = {v: common(table, cut, terms) for v, terms in faced.items()}
    formless = [v for v, found in sets.items() if found is None]
    if formless:
        raise Refused(10, min(formless))
    assert sum(map(len, sets.values())) <= len(heading)
    worst = [table.degree(f, g) for _, f, g in symbols]
    best = list(worst)
    own = {}
    for v, positions in sets.items():
        columns = zip(*(preorder(t) for t in faced[v]))
        shared = [[min(table.degree(s, x) for x in column) for s in chosen] for chosen, column in zip(positions, columns)]
        own[v] = min(map(min, shared)), min(map(max, shared))
        worst.append(own[v][0])
        best.append(own[v][1])
    return Match(min(worst), min(best), sets, own)


# ---- the asking program

def answer_text(found):
    lines = ['match %d %d' % (found.lowest, found.highest)]
    for v in sorted(found.sets):
        lines.append('x%d %d %d %d' % (v, len(found.sets[v]), *found.own[v]))
        lines += [' '.join(map(str, symbols)) for symbols in found.sets[v]]
    return ''.join(line + '\n' for line in lines)


def question(cut, pattern, heading, data):
    header = (cut, len(pattern), len(heading), 14, 14 + 2 * len(pattern), 14 + 2 * (len(pattern) + len(heading)))
    total = header[-1] + len(data)
    return b''.join(two_bytes(n) for n in header + (total,) + tuple(pattern) + tuple(heading)) + bytes(data)


def ask(asked):
    """What the program prints for a question file."""
    try:
        if not 14 <= len(asked) <= 65535:
            raise Refused(12, 0)
        cut, m, n, at_pattern, at_heading, at_table, total = (number(asked, i) for i in range(0, 14, 2))
        if (at_pattern, at_heading, at_table) != (14, 14 + 2 * m, 14 + 2 * m + 2 * n) or total != len(asked) or at_table > total:
            raise Refused(12, 0)
        nodes = [number(asked, i) for i in range(14, at_table, 2)]
        return answer_text(match(asked[at_table:], nodes[:m], nodes[m:], cut))
    except Refused as why:
        return 'refused %d %d\n' % (why.number, why.place)


# ---- saved answers

# the words of a set when it had room for 256 symbols
SAVED = 4


def widen(words, room):
    """The sets of a saved answer as sets of today, for an output with so much room."""
    if len(words) % SAVED or room < 2 * len(words):
        raise Refused(8, 0)
    return [word for at in range(0, len(words), SAVED) for word in words[at:at + SAVED] + [0] * (WORDS - SAVED)]
