#!/usr/bin/env python3
"""Makes crates/call_cases/stdin and stdout: cases for the public calls, and what the reference answers to them.

    make_call_cases.py            writes both files
    make_call_cases.py --check    says whether the stored files are what is made today

Where a case has a published answer, or one that the rules spell out, the reference has to agree with it. The cases of table_cases.txt have
answers made by hand. The last cases are of exchange records.
"""
import record_cases
import stored
from call_cases import GUARD, SETS, SPANS, Cases, part_text, runs
from chosen_cases import GROUPS
from drawing import Draw, damaged, damaged_table, draw_match, draw_table, stray
from drawn_records import draw_either, draw_known, draw_lent
from reference import MOST_SYMBOLS, WORDS, match, table_bytes
from table_cases import by_hand


# ---- what is printed

def published_match(table, vector):
    """What is published, with each variable's own degrees as the reference has them, since they are not."""
    answer = vector['answer']
    if 'refused' in answer:
        return 'refused %d %d' % tuple(answer['refused'])
    own = match(table, vector['pattern'], vector['heading'], vector['cut']).own
    spans, sets = [0] * 128 + [GUARD] * (SPANS - 128), []
    for v in answer['order']:
        spans[4 * v:4 * v + 4] = answer['spans'][str(v)] + list(own[v])
        for symbols in answer['sets'][str(v)]:
            sets += [sum(1 << s - at for s in symbols if at <= s < at + 64) for at in range(0, MOST_SYMBOLS, 64)]
    lent = WORDS * len(vector['heading'])
    sets += [0] * (lent - len(sets)) + [GUARD] * (SETS - lent)
    return 'match %d %d spans%s sets%s' % (answer['lowest'], answer['highest'], runs(spans), runs(sets))


def published(cases):
    examples = stored.published()
    for vector in examples['vectors']:
        listed, kind = examples['tables'][vector['table']], vector['kind']
        table = table_bytes(listed['arities'], listed['pairs'])
        if kind == 'symbol-degree':
            cases.symbol_degree(table, *vector['symbols'], 'degree %d' % vector['degree'])
        elif kind == 'degree':
            cases.degree(table, *vector['terms'], 'degree %d' % vector['degree'])
        elif kind == 'nearer':
            cases.nearer(table, vector['heading'], *vector['candidates'], part_text('nearer', vector['candidates'][vector['nearer']]))
        elif kind == 'match':
            cases.match(table, vector['pattern'], vector['heading'], vector['cut'], published_match(table, vector))


# ---- drawn at random

def drawn(cases, seed):
    draw = Draw(seed)
    table, used = draw_table(draw)
    data = table_bytes(table.arities, table.pairs)
    pattern, heading = draw_match(draw, table, used)
    one, two = (stray(draw, table, used, heading, 40) for _ in range(2))
    if draw.chance(8):
        data = damaged_table(draw, data)
    if draw.chance(8):
        pattern = damaged(draw, pattern)
    if draw.chance(8):
        heading = damaged(draw, heading)
    kind = draw.below(10)
    if kind == 0:
        asked = used if draw.chance(70) else range(len(table.arities) + 3)
        cases.symbol_degree(data, draw.one(asked), draw.one(asked))
    elif kind == 1:
        cases.degree(data, heading, one)
    elif kind == 2:
        cases.subterm(data, pattern, draw.below(len(pattern) + 1))
    elif kind == 3:
        cases.nearer(data, heading, one, two)
    else:
        cut = draw.one([1, 1, 1, 2, 250, 400, 500, 600, 700, 1000])
        sets = WORDS * len(heading) + draw.one([-1] + 20 * [0] + [1, 5, 100])
        cases.match(data, pattern, heading, cut, spans=128 + draw.one([0, 0, 1, 7]), sets=max(sets, 0))


def drawn_record(cases, seed):
    draw = Draw(seed)
    absent = draw.one([0, 9, 65535])
    known = draw_known(draw, absent)
    record = draw_either(draw, known)
    cases.heading(record, draw_lent(draw, known), symbol=draw.below(3), absent=absent, room=draw.one([2, 3, 3, 3, 3, 3, 4, 5]))


# ---- the files

def made():
    cases = Cases()
    for group in [published] + GROUPS:
        group(cases)
    for seed in range(300):
        drawn(cases, seed)
    by_hand(cases)
    for group in record_cases.GROUPS:
        group(cases)
    for seed in range(200):
        drawn_record(cases, seed)
    return {'stdin': b''.join(cases.asked), 'stdout': ''.join(cases.lines).encode()}, len(cases.lines)


def main():
    files, count = made()
    stored.keep('call_cases', files, count, 'cases')


if __name__ == '__main__':
    main()
