"""Holds the reference's printed answers against the definition of a matcher, by trying all substitutions on small tables.

usage: brute_force.py [CASES]

A substitution gives each variable of the pattern a ground term. A term that reaches the cut with a subterm of the heading has that
subterm's shape, so that terms with one node more than the subterms that face variables are enough; all of them are tried. What is held
against them is read back from the answer's text. The place of a refusal is found by paths and by trying all terms.
"""
import itertools
import random
import sys
from collections import Counter

import reference as ref


def ground_terms(table, nodes):
    """All ground terms of at most so many nodes."""
    by_size = {0: []}
    for size in range(1, nodes + 1):
        by_size[size] = []
        for symbol, arity in enumerate(table.arities):
            for sizes in compositions(size - 1, arity):
                for arguments in itertools.product(*(by_size[s] for s in sizes)):
                    by_size[size].append((symbol, list(arguments)))
    return [t for terms in by_size.values() for t in terms]


def compositions(total, parts):
    if parts == 0:
        return [()] if total == 0 else []
    return [(first,) + rest for first in range(1, total + 1) for rest in compositions(total - first, parts - 1)]


def fill(pattern, given):
    return given[pattern[1]] if pattern[0] == ref.VARIABLE else (pattern[0], [fill(a, given) for a in pattern[1]])


def variables(pattern):
    found = [p[1] for p in ref.preorder_pattern(pattern) if p[0] == ref.VARIABLE]
    return sorted(set(found))


def matchers(table, cut, pattern, heading, terms):
    names = variables(pattern)
    for chosen in itertools.product(terms, repeat=len(names)):
        given = dict(zip(names, chosen))
        degree = ref.degree(table, fill(pattern, given), heading)
        if degree >= cut:
            yield given, degree


def drawn(sets, given):
    return all(len(ref.preorder(t)) == len(sets[v]) and all(s in chosen for s, chosen in zip(ref.preorder(t), sets[v]))
               for v, t in given.items())


def read_answer(text):
    """Lowest, highest and the sets of each variable, as the text of a match has them, or number and place of a refusal."""
    assert text.endswith('\n')
    first, *lines = text[:-1].split('\n')
    kind, *numbers = first.split(' ')
    sets, own = {}, {}
    for line in lines:
        if line.startswith('x'):
            v, count, *degrees = line[1:].split(' ')
            assert not sets or int(v) > max(sets)
            sets[int(v)] = positions = []
            own[int(v)] = tuple(map(int, degrees))
            assert int(count) > 0
            left = int(count)
        else:
            symbols = [int(s) for s in line.split(' ')]
            assert symbols == sorted(set(symbols)) and left > 0
            positions.append(symbols)
            left -= 1
        assert line == ' '.join(line.split())
    assert not sets or left == 0
    return kind, tuple(map(int, numbers)), sets, own


def at_path(term, path):
    """The subterm at the path; None if the term has no such path."""
    for i in path:
        if term is None or term[0] == ref.VARIABLE or i >= len(term[1]):
            return None
        term = term[1][i]
    return term


def paths(pattern):
    """The pattern's paths in preorder."""
    return [()] + [(i,) + path for i, a in enumerate(pattern[1]) for path in paths(a)] if pattern[0] != ref.VARIABLE else [()]


def facing(pattern, heading):
    """Each node of the pattern, in preorder, with what the heading has at its path."""
    return [(at_path(pattern, path), at_path(heading, path)) for path in paths(pattern)]


def refusal(table, cut, pattern, heading, terms):
    """The refusal of 9 or 10 that has to be given, if any."""
    pairs = facing(pattern, heading)
    for index, (p, h) in enumerate(pairs):
        if p[0] != ref.VARIABLE and h is not None and table.degree(p[0], h[0]) < cut:
            return 9, index
    for v in variables(pattern):
        faced = [h for p, h in pairs if p == (ref.VARIABLE, v)]
        if not any(all(ref.degree(table, t, h) >= cut for h in faced) for t in terms):
            return 10, v
    return None


def random_case(rng):
    symbols = rng.randint(1, 6)
    arities = [rng.choice((0, 0, 0, 1, 2)) for _ in range(symbols)]
    arities[rng.randrange(symbols)] = 0
    pairs = [(a, b, rng.choice((300, 500, 700, 999))) for a in range(symbols) for b in range(a + 1, symbols)
             if arities[a] == arities[b] and rng.random() < 0.6]
    table = ref.Table(arities, pairs)

    def term(depth, variables):
        if variables and rng.random() < 0.4:
            return (ref.VARIABLE, rng.randrange(2))
        fitting = [s for s in range(symbols) if depth > 1 or arities[s] == 0]
        s = rng.choice(fitting)
        return (s, [term(depth - 1, variables) for _ in range(arities[s])])

    def near(p):
        """A heading of the pattern's shape, mostly."""
        if p[0] == ref.VARIABLE:
            return term(2, False)
        alike = [s for s in range(symbols) if arities[s] == arities[p[0]] and (stray or table.degree(s, p[0]) >= cut)]
        return (rng.choice(alike), [near(a) for a in p[1]])

    cut, stray = rng.choice((1, 300, 400, 500, 600, 700, 1000)), rng.random() < 0.3
    pattern = term(3, True)
    if len(written(pattern)) < 3 and rng.random() < 0.9:
        return random_case(rng)
    heading = near(pattern) if rng.random() < 0.8 else term(3, False)
    return table, cut, pattern, heading


def written(pattern):
    return [32768 + p[1] if p[0] == ref.VARIABLE else p[0] for p in ref.preorder_pattern(pattern)]


def check(table, cut, pattern, heading):
    """What was answered, as a list of one; none if there is too much to try."""
    nodes = ref.preorder(heading)
    if len(nodes) > 7:
        return []
    names = variables(pattern)
    faced = [len(ref.preorder(h)) for p, h in facing(pattern, heading) if p[0] == ref.VARIABLE and h is not None]
    terms = ground_terms(table, 1 + max(faced, default=0))
    if len(terms) ** len(names) > 40000:
        return []
    by_definition = list(matchers(table, cut, pattern, heading, terms))
    data = ref.table_bytes(table.arities, table.pairs)
    kind, numbers, sets, own = read_answer(ref.ask(ref.question(cut, written(pattern), nodes, data)))
    if kind == 'refused':
        assert not by_definition, (table.arities, table.pairs, cut, pattern, heading)
        assert numbers == refusal(table, cut, pattern, heading, terms), (table.arities, table.pairs, cut, pattern, heading)
        return ['refused %d' % numbers[0]]
    assert kind == 'match' and by_definition, 'answered, and nothing matches'
    degrees = [degree for _, degree in by_definition]
    assert numbers == (min(degrees), max(degrees)) and list(sets) == names
    matching = [given for given, _ in by_definition]
    for v in names:                               # its own degrees: what is given to it, with all that faces it
        faced = [h for p, h in facing(pattern, heading) if p == (ref.VARIABLE, v)]
        degrees = [min(ref.degree(table, given[v], h) for h in faced) for given in matching]
        assert own[v] == (min(degrees), max(degrees)), (table.arities, table.pairs, cut, pattern, heading)
    for chosen in itertools.product(terms, repeat=len(names)):
        given = dict(zip(names, chosen))
        assert drawn(sets, given) == (given in matching)
    return ['match']


def richer(rng, table):
    """The table with some pairs added and some degrees raised."""
    size = range(len(table.arities))
    listed = {(a, b): degree for a, b, degree in table.pairs}
    pairs = [(a, b, rng.choice([d for d in (1, 300, 500, 600, 700, 999) if d >= listed.get((a, b), 1)])) for a in size for b in size
             if a < b and table.arities[a] == table.arities[b] and ((a, b) in listed or rng.random() < 0.5)]
    return ref.Table(table.arities, pairs)


def check_richer(rng, table, cut, pattern, heading):
    """What became of the matchers under the table under a richer one, as a list of one; none if there is too much to try."""
    more = richer(rng, table)
    faced = [len(ref.preorder(h)) for p, h in facing(pattern, heading) if p[0] == ref.VARIABLE and h is not None]
    terms = ground_terms(table, 1 + max(faced, default=0))
    if len(terms) ** len(variables(pattern)) > 4000:
        return []
    before, after = list(matchers(table, cut, pattern, heading, terms)), list(matchers(more, cut, pattern, heading, terms))
    for given, degree in before:
        assert any(given == other and degree <= then for other, then in after), (table.pairs, more.pairs, cut, pattern, heading)
    if not before:
        return ['gained a match' if after else 'none in either']
    degrees, then = [degree for _, degree in before], [degree for _, degree in after]
    assert max(then) >= max(degrees)
    return ['lost nothing but of the lowest' if min(then) < min(degrees) else 'lost nothing']


def check_faults(arities, longest):
    """Holds the places of 6 and 7 against all terms: a list is at fault where no term goes on as it does, or where it ends too early."""
    table, data, tried = ref.Table(arities, []), ref.table_bytes(arities, []), 0
    constant = arities.index(0)
    for variables, number in (True, 6), (False, 7):
        leaves = ref.Table(arities + [0] * variables, [])             # its last symbol stands for the variable
        nodes = [32768 if variables and s == len(arities) else s for s in range(len(leaves.arities))]
        terms = [tuple(nodes[s] for s in ref.preorder(t)) for t in ground_terms(leaves, 1 + longest * max(arities))]
        starts = {t[:k] for t in terms for k in range(len(t) + 1)}
        for size in range(longest + 1):
            for given in itertools.product(list(range(len(arities) + 1)) + [32768, 32800], repeat=size):
                bad = [k for k in range(size) if given[:k + 1] not in starts]
                lists = (given, (constant,)) if variables else ((constant,), given)
                answer = ref.ask(ref.question(1, *lists, data))
                if given in terms:
                    assert not answer.startswith('refused %d' % number), (arities, given)
                else:
                    assert answer == 'refused %d %d\n' % (number, (bad + [size])[0]), (arities, given)
                tried += 1
    return tried


def main():
    wanted, rng, told = int(sys.argv[1]) if len(sys.argv) > 1 else 3000, random.Random(1), Counter()
    while sum(told.values()) < wanted:
        told.update(check(*random_case(rng)))
    print('%d cases, each held against all substitutions: %s' % (wanted, ', '.join('%d %s' % (told[k], k) for k in sorted(told))))
    twice = Counter()
    while sum(twice.values()) < wanted // 3:
        twice.update(check_richer(rng, *random_case(rng)))
    print('%d cases under two tables, the second richer: %s' % (sum(twice.values()), '; '.join('%d %s' % (twice[k], k) for k in sorted(twice))))
    tried = sum(check_faults(arities, longest) for arities, longest in (([0], 4), ([1, 0], 4), ([2, 0], 4), ([0, 2, 1], 3), ([0, 3], 3)))
    print('%d lists, each held against all terms' % tried)


if __name__ == '__main__':
    main()
