"""Tables, terms and patterns drawn at random, the same on every machine, and damage to them."""
import reference

X = 32768                                         # variable 0
DEGREES = [1, 250, 400, 500, 600, 700, 800, 998, 999]


class Draw:
    """Numbers that are the same on every machine."""

    def __init__(self, seed):
        self.state = seed

    def below(self, n):
        self.state = (self.state * 6364136223846793005 + 1442695040888963407) % (1 << 64)
        return (self.state >> 33) % n

    def one(self, choices):
        return choices[self.below(len(choices))]

    def chance(self, hundredths):
        return self.below(100) < hundredths


def draw_table(draw):
    """A table of a few symbols; one in six has many, of which the terms use a few. The first of those is a constant, the last is none."""
    if draw.chance(17):
        size = draw.one([63, 64, 65, 127, 128, 129, 200, 256, 257, 319, 320, 511, 512])
        used = sorted({draw.below(size) for _ in range(10)} | {size - 1})
    else:
        used = list(range(3 + draw.below(8)))
        size = len(used)
    arities = [0] * size
    for s in used[1:]:
        arities[s] = draw.one([0, 0, 1, 1, 2, 3])
    arities[used[-1]] = 2 + draw.below(2)
    pairs = [(a, b, draw.one(DEGREES)) for a in used for b in used if a < b and arities[a] == arities[b] and draw.chance(75)]
    return reference.Table(arities, pairs), used


def draw_term(draw, table, used, depth, leaf):
    """A term of at most that depth, with what leaf gives for a constant. Deep ones do not end at once."""
    heads = [s for s in used if table.arities[s]] if depth > 3 else used
    head = draw.one(heads)
    if depth == 1 or table.arities[head] == 0:
        return [leaf()]
    return [head] + [n for _ in range(table.arities[head]) for n in draw_term(draw, table, used, depth - 1, leaf)]


def stray(draw, table, used, nodes, hundredths):
    """The list with some symbols exchanged for others of their arity."""
    def other(node):
        return draw.one([s for s in used if table.arities[s] == table.arities[node]]) if draw.chance(hundredths) else node
    return [other(node) if node < 32768 else node for node in nodes]


def damaged(draw, nodes):
    nodes, at = list(nodes), draw.below(len(nodes) + 1)
    how = draw.below(4)
    if how == 0:
        nodes[at:at + 1] = []
    elif how == 1:
        nodes.insert(at, draw.below(4))
    elif how == 2:
        nodes[at:at + 1] = [draw.one([X, 32767, 32799, 32800, 65535, 256, 300, 512])]
    else:
        nodes = nodes[:at]
    return nodes


def with_byte(data, at, byte):
    return data[:at] + bytes([byte]) + data[at + 1:]


def damaged_table(draw, data):
    how = draw.below(3)
    if how == 0:
        return data[:draw.below(len(data))]
    at = draw.below(10) if how == 1 else draw.below(len(data))
    return with_byte(data, at, draw.below(256))


def draw_match(draw, table, used):
    """A pattern, and a heading that it was filled to, more or less."""
    constants = [s for s in used if table.arities[s] == 0]
    variables = [X + draw.below(32) for _ in range(1 + draw.below(3))]
    forms = {v: draw_term(draw, table, used, 1 + draw.below(3), lambda: draw.one(constants)) for v in variables}
    pattern = draw_term(draw, table, used, 3 + draw.below(3), lambda: draw.one(variables) if draw.chance(70) else draw.one(constants))
    heading, hundredths = [], draw.one([10, 30, 60, 100])
    for node in pattern:
        heading += stray(draw, table, used, forms.get(node, [node]), hundredths)
    return pattern, heading
