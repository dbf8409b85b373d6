"""Questions to the asking program drawn at random: sound ones, of which every other is a match, and damaged ones."""
from drawing import DEGREES, X, damaged, damaged_table, draw_match, draw_table, draw_term, stray
from reference import Table, number, question, table_bytes, two_bytes


def chained_table(draw):
    """A table of 10 to 60 symbols, in rows of one arity: each is near the next few in its row, less so the further they are off."""
    arities = [0, 0, 0, 1, 2] + [draw.one([0, 0, 0, 1, 1, 2, 3, 4, 8]) for _ in range(5 + draw.below(50))]
    reach, fall = 1 + draw.below(3), draw.one([0, 50, 100, 300])
    pairs = []
    for arity in sorted(set(arities)):
        row = [s for s in range(len(arities)) if arities[s] == arity]
        for i, a in enumerate(row):
            for off, b in enumerate(row[i + 1:i + 1 + reach]):
                pairs.append((a, b, max(1, draw.one(DEGREES) - fall * off)))
    return Table(arities, sorted(pairs)), list(range(len(arities)))


def near(draw, table, used, nodes, cut):
    """The list with some symbols exchanged for others that reach the cut with them."""
    return [draw.one([s for s in used if table.degree(s, node) >= cut]) if draw.chance(50) else node for node in nodes]


def draw_near(draw, table, used, cut):
    """A pattern with variables that stand often, and a heading that it can be filled to reach, but for a stray symbol here and there."""
    constants = [s for s in used if table.arities[s] == 0]
    names = [X + draw.below(32) for _ in range(1 + draw.below(4))]
    forms = {v: draw_term(draw, table, used, 1 + draw.below(3), lambda: draw.one(constants)) for v in names}
    pattern = draw_term(draw, table, used, 2 + draw.below(4), lambda: draw.one(names) if draw.chance(70) else draw.one(constants))
    if len(pattern) > 200 or len(pattern) == 1 and draw.chance(95):
        return draw_near(draw, table, used, cut)
    astray = {True: draw.one([0, 0, 5, 15, 40]), False: draw.one([0, 0, 0, 2, 10])}
    heading = []
    for node in pattern:
        heading += stray(draw, table, used, near(draw, table, used, forms.get(node, [node]), cut), astray[node >= X])
    return pattern, heading


def draw_parts(draw):
    """Cut, pattern, heading, table."""
    chained = draw.chance(50)
    table, used = chained_table(draw) if chained else draw_table(draw)
    degrees = [degree for _, _, degree in table.pairs] or [500]
    cut = min(1000, max(1, draw.one([1, 1000, draw.one(degrees), draw.one(degrees), draw.one(degrees) + 1, draw.one(degrees) - 1])))
    pattern, heading = draw_near(draw, table, used, cut) if draw.chance(80) else draw_match(draw, table, used)
    return cut, pattern, heading, table_bytes(table.arities, table.pairs)


def draw_question(draw):
    return question(*draw_parts(draw))


def damaged_file(draw, data):
    """Bits turned, bytes put in their places, an end lost or added. What the header says stays as it was."""
    how, at = draw.below(6), draw.below(len(data))
    if how == 0:
        return data[:at]
    if how == 1:
        return data + bytes(draw.below(256) for _ in range(1 + draw.below(9)))
    if how == 2:
        return data[:at] + bytes([data[at] ^ 1 << draw.below(8)]) + data[at + 1:]
    if how == 3:
        at = 2 * draw.below(7)
        return data[:at] + two_bytes(draw.one([0, 1, 14, 1024, 1025, 32768, 65535, draw.below(65536)])) + data[at + 2:]
    for _ in range(1 + draw.below(4)):
        at = number(data, 10) + draw.below(40) if how == 4 else draw.below(len(data))
        at %= len(data)
        data = data[:at] + bytes([draw.below(256)]) + data[at + 1:]
    return data


def draw_damaged(draw):
    """A question with a fault or two: in a list or the table, which the header then tells rightly, or anywhere in the file."""
    cut, pattern, heading, table = draw_parts(draw)
    how = draw.below(8)
    if how > 3:
        return damaged_file(draw, question(cut, pattern, heading, table))
    if how in (0, 3):
        pattern = damaged(draw, pattern)
    if how in (1, 3):
        heading = damaged(draw, heading)
    if how == 2:
        table = damaged_table(draw, table)
    return question(cut, pattern, heading, table)


def draw_bytes(draw):
    """Any bytes, or any behind a header that fits them."""
    rest = bytes(draw.below(256) for _ in range(draw.below(120)))
    if draw.chance(30):
        return rest
    m, n = draw.below(4), draw.below(4)
    header = (draw.below(1100), m, n, 14, 14 + 2 * m, 14 + 2 * m + 2 * n, 14 + len(rest))
    return b''.join(map(two_bytes, header)) + rest
