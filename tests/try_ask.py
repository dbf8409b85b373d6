#!/usr/bin/env python3
"""Tries the asking program, one question a run, and says in its last line whether all answers are the reference's.

    try_ask.py [--seed N] [--runs N] PROGRAM [ARGUMENT ..]

The inputs are the shortest ones, the longest ones, questions chosen for the rules, and as many drawn at random as are asked for.
"""
import chosen_cases
import edge_matches
import edge_questions
from drawing import Draw
from edge_questions import LISTING
from questions import Questions
from reference import ask
from try_replay import KINDS
from trying import Trial, arguments

EVERY = 17                                        # of the chosen questions one in so many is asked, and every long answer


def chosen():
    asked = Questions()
    for group in chosen_cases.GROUPS + edge_questions.GROUPS + edge_matches.GROUPS:
        group(asked)
    return [question for i, question in enumerate(asked.asked) if i % EVERY == 0 or len(asked.answers[question]) > 10000]


def inputs(draw):
    yield from (bytes(draw.below(256) for _ in range(size)) for size in range(15))
    yield from (LISTING[:size] for size in (1, 13, 14, 30, 95, 96))
    for size in 65534, 65535, 65536, 65537, 65632, 131072, 1 << 20:
        yield LISTING + bytes(size - len(LISTING))
        yield LISTING[:12] + (size % 65536).to_bytes(2, 'little') + LISTING[14:] + bytes(size - len(LISTING))
    yield from chosen()


def main():
    given = arguments('tries the asking program', 200)
    draw, trial = Draw(1000003 * given.seed), Trial(given.program)
    for question in inputs(draw):
        trial.check('chosen', question, ask(question).encode())
    for k in range(given.runs):
        question = draw.one(KINDS)(draw)
        trial.check('drawn %d' % k, question, ask(question).encode())
    for piece in 1, 2, 3, 13, 95:
        trial.check('in pieces of %d' % piece, LISTING, ask(LISTING).encode(), piece)
    trial.finish(trial.runs)


if __name__ == '__main__':
    main()
