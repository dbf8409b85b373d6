"""Cases for the program crates/call_cases: how one is written, and what is to be answered.

A case is nine numbers (which call; how many bytes there are, as two numbers to be added; how many numbers each of three lists has; three
numbers that the call takes besides), then the bytes (the table, the arities to be written, or a record) and the lists (nodes, or the pairs to
be written; or words, four numbers to each, the low one first). With a record the lists are where the known strings end, two numbers to each
end, the strings' numbers, and the strings themselves, in bytes. Its answer is a line that begins with the case's number.
"""
import sys

import exchange
import reference
from reference import Refused, two_bytes

# as in the program: what fills a match's buffers before the call, their lengths (that of sets is the converter's output's too), the length of a
# write's output and that of a record's, and room for bytes and a list
GUARD, SPANS, SETS, OUTPUT, NODES, BYTES, LONGEST = 9999, 136, 1026 * reference.WORDS, 72, 6, 99999, 24579

SYMBOL_DEGREE, DEGREE, SUBTERM, NEARER, MATCH, IS_TABLE, ARITY, PAIR, WRITE, WIDEN, HEADING = range(1, 12)


# ---- what is asked

def two_numbers(n):
    """A number that may be above 65,535, as two to be added."""
    return [min(n, 65535), max(n - 65535, 0)]


def words(numbers):
    return b''.join(map(two_bytes, numbers))


# ---- answers as text

def refused(why):
    return 'refused %d %d' % (why.number, why.place)


def answered(text, ask):
    """The text with what is answered filled in, or the refusal."""
    try:
        return text % ask()
    except Refused as why:
        return refused(why)


def part_text(what, nodes):
    return ' '.join(map(str, [what, len(nodes)] + list(nodes)))


def runs(values):
    """The runs of equal numbers, each as FIRST-LAST:NUMBER or INDEX:NUMBER. Those of 0 are left out."""
    said, first = '', 0
    for i, value in enumerate(values):
        if i + 1 == len(values) or values[i + 1] != value:
            if value:
                said += ' %d:%d' % (i, value) if first == i else ' %d-%d:%d' % (first, i, value)
            first = i + 1
    return said


def match_text(table, pattern, heading, cut, spans_lent, sets_lent):
    spans, sets = [GUARD] * SPANS, [GUARD] * SETS
    try:
        found = reference.match(table, pattern, heading, cut, spans_lent, sets_lent)
        said = 'match %d %d' % (found.lowest, found.highest)
        spans[:spans_lent], sets[:sets_lent] = found.spans(spans_lent), found.words(sets_lent)
        assert GUARD not in spans[:spans_lent] + sets[:sets_lent]
    except Refused as why:
        said = refused(why)
        if why.number > 8:
            spans[:spans_lent], sets[:sets_lent] = [0] * spans_lent, [0] * sets_lent
    return said + ' spans' + runs(spans) + ' sets' + runs(sets)


def output_text(output):
    """What a write left, as numbers of two bytes."""
    return ' ' + part_text('output', [reference.number(output, i) for i in range(0, len(output), 2)])


def write_text(arities, numbers, room):
    """None for a last pair that is not whole: the reference takes pairs."""
    if len(numbers) % 3:
        return None
    output = [7] * OUTPUT
    try:
        data = reference.write_table(arities, list(zip(*[iter(numbers)] * 3)), room)
        said = 'written %d' % len(data)
        output[:len(data)] = data
    except Refused as why:
        said = refused(why)
    return said + output_text(output)


def widen_text(saved, room):
    output = [GUARD] * SETS
    try:
        data = reference.widen(saved, room)
        said = 'written %d' % len(data)
        output[:len(data)] = data
    except Refused as why:
        said = refused(why)
    return said + ' output' + runs(output)


def headed_text(nodes):
    return 'heading ' + part_text('output', nodes + [GUARD] * (NODES - len(nodes)))


def heading_text(record, lent, symbol, absent, room):
    try:
        return headed_text(exchange.heading(record, lent, symbol, absent, room))
    except Refused as why:
        return refused(why) + ' ' + part_text('output', [GUARD] * NODES)


# ---- cases

class Cases:
    """Each method adds a case, with the reference's answer where it has one. Where another source tells the answer the two have to agree;
    for a match and for saved answers it may leave out the buffers, for a record's heading it may be the nodes."""

    def __init__(self):
        self.asked, self.lines = [], []

    def add(self, kind, data, lists, numbers, answer, told, text=b''):
        if None not in (answer, told) and answer != told and not answer.startswith((told + ' spans', told + ' output')):
            sys.exit('kind %d, bytes %.300s, lists %.300s, numbers %s: %.300s, not %.300s' % (kind, data.hex(), lists, numbers, answer, told))
        assert len(data) <= BYTES and max(map(len, lists), default=0) <= LONGEST
        sizes = [len(nodes) for nodes in lists] + [0] * (3 - len(lists))
        sizes[2] += len(text)
        header = [kind] + two_numbers(len(data)) + sizes + list(numbers) + [0] * (3 - len(numbers))
        self.asked.append(words(header) + bytes(data) + b''.join(map(words, lists)) + text)
        self.lines.append('%d %s\n' % (len(self.lines), answer or told))

    def is_table(self, table, told=None):
        self.add(IS_TABLE, table, [], [], answered('table', lambda: reference.read_table(table) and ()), told)

    def arity(self, table, symbol, told=None):
        answer = answered('arity %d', lambda: reference.read_back(reference.read_table(table).arities, symbol))
        self.add(ARITY, table, [], [symbol], answer, told)

    def pair(self, table, index, told=None):
        answer = answered('pair %d %d %d', lambda: reference.read_back(reference.read_table(table).pairs, index))
        self.add(PAIR, table, [], two_numbers(index), answer, told)

    def write(self, arities, pairs, room, told=None):
        assert room < OUTPUT
        self.add(WRITE, bytes(arities), [pairs], [room], write_text(arities, pairs, room), told)

    def symbol_degree(self, table, a, b, told=None):
        answer = answered('degree %d', lambda: reference.symbol_degree(reference.read_table(table), a, b))
        self.add(SYMBOL_DEGREE, table, [], [a, b], answer, told)

    def degree(self, table, first, second, told=None):
        answer = answered('degree %d', lambda: reference.heading_degree(table, first, second))
        self.add(DEGREE, table, [first, second], [], answer, told)

    def subterm(self, table, term, index, told=None):
        start, count = reference.subterm(table, term, index)
        self.add(SUBTERM, table, [term], [index], part_text('part', term[start:start + count]), told)

    def nearer(self, table, heading, first, second, told=None):
        nodes = ([], first, second)[reference.nearer(table, heading, first, second)]
        self.add(NEARER, table, [heading, first, second], [], part_text('nearer', nodes), told)

    def match(self, table, pattern, heading, cut, told=None, spans=128, sets=None):
        if sets is None:
            sets = reference.WORDS * min(len(heading), 1024)
        assert spans < SPANS and sets < SETS
        answer = match_text(table, pattern, heading, cut, spans, sets)
        self.add(MATCH, table, [pattern, heading], [cut, spans, sets], answer, told)

    def widen(self, saved, room, told=None):
        assert room < SETS
        numbers = [word >> at & 65535 for word in saved for at in range(0, 64, 16)]
        self.add(WIDEN, b'', [numbers], [room], widen_text(saved, room), told)

    def heading(self, record, lent, told=None, symbol=0, absent=9, room=exchange.NODES):
        assert room < NODES
        text, ends, numbers = lent
        halves = [half for end in ends for half in (end & 65535, end >> 16)]
        answer = heading_text(record, lent, symbol, absent, room)
        self.add(HEADING, record, [halves, numbers], [symbol, absent, room], answer, headed_text(told) if isinstance(told, list) else told, text)
