#!/usr/bin/env python3
"""Tries a replay program on inputs that are not stored, and says in its last line whether all answers are the reference's.

    try_replay.py [--seed N] [--runs N] PROGRAM [ARGUMENT ..]

A stored input ends in one way; here are all ways to end inside a length, a question or one that is too long, inputs of 0 to 14 bytes,
the longest questions, inputs handed over in small pieces, and in each of the runs that are asked for 400 questions drawn at random.
"""
from drawing import Draw
from drawn_questions import draw_bytes, draw_damaged, draw_question
from edge_questions import LISTING
from replay import framed, replies
from trying import Trial, arguments

KINDS = [draw_question] * 4 + [draw_damaged] * 4 + [draw_bytes]


def length(n):
    return n.to_bytes(4, 'little')


def shortest(draw):
    """Inputs of 0 to 14 bytes, a few of each length."""
    for size in range(15):
        yield bytes(size)
        yield b'\xff' * size
        yield framed(LISTING)[:size]
        yield bytes(draw.below(256) for _ in range(size))
        for told in range(max(0, size - 5), size):
            yield (length(told) + LISTING)[:size]


def broken_off(draw):
    """What may stand at an input's end: parts of a length, and lengths with less behind them than they tell."""
    for count in 1, 2, 3:
        for byte in 0, 1, 255:
            yield bytes([byte] * count)
    for told, there in ((1, (0,)), (14, (0, 13)), (96, (0, 1, 13, 14, 95)), (65535, (0, 96, 65534)), (65536, (0, 1, 96, 65535)),
                        (65632, (0, 96, 65631)), (131072, (65536, 131071)), (131168, (96, 65536)), (1 << 24, (0, 1, 65536, 70000)),
                        (1 << 31, (0, 96, 65536)), ((1 << 32) - 4, (0, 4, 96, 65536)), ((1 << 32) - 1, (0, 3, 96, 65535, 65536, 200000))):
        for size in there:
            yield length(told) + (LISTING + bytes(size))[:size]


def whole(draw):
    """Long questions one behind the other, short ones between them."""
    full = LISTING[:12] + b'\xff\xff' + LISTING[14:] + bytes(65535 - len(LISTING))
    sizes = [65535, 65536, 65537, 96 + 65536, 131072, 131073, 1 << 20]
    for size in sizes:
        yield b''.join(map(framed, (LISTING, (full + bytes(size))[:size], LISTING, b'', LISTING)))
    yield b''.join(framed((full + bytes(size))[:size]) for size in sizes + [0, 1, 13, 14, 96])
    yield framed(b'') * 3000
    yield framed(LISTING) * 500


def inputs(draw):
    before = [b'', framed(LISTING), framed(LISTING[:-1]) + framed(b'') + framed(bytes(65536)) + framed(LISTING)]
    yield from (('shortest', given) for given in shortest(draw))
    yield from (('broken off', given + end) for given in before for end in broken_off(draw))
    every = framed(LISTING) + framed(LISTING[:5]) + framed(b'')
    yield from (('cut at %d' % at, every[:at]) for at in range(len(every) + 1))
    yield from (('whole', given) for given in whole(draw))


def drawn(draw):
    given = b''.join(framed(draw.one(KINDS)(draw)) for _ in range(400))
    return given + draw.one([b''] + list(broken_off(draw)) + [framed(draw_question(draw))[:-1]])


def main():
    given = arguments('tries a replay program', 12)
    draw, trial, questions = Draw(1000003 * given.seed), Trial(given.program), 0
    for label, batch in inputs(draw):
        wanted = replies(batch)
        trial.check(label, batch, wanted)
        questions += wanted.count(b'question ')
    for k in range(given.runs):
        batch = drawn(draw)
        wanted = replies(batch)
        trial.check('drawn %d' % k, batch, wanted)
        questions += wanted.count(b'question ')
    for piece in 1, 2, 3, 5, 97:
        batch = framed(LISTING) + framed(LISTING[:13]) + framed(LISTING) + framed(LISTING)[:piece]
        trial.check('in pieces of %d' % piece, batch, replies(batch), piece)
        questions += 4
    trial.finish(questions)


if __name__ == '__main__':
    main()
