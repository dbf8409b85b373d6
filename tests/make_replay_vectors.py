#!/usr/bin/env python3
"""Makes crates/replay/stdin and stdout: several thousand questions, and what the reference answers to them.

    make_replay_vectors.py            writes both files, and says how often each answer is given
    make_replay_vectors.py --check    says whether the stored files are what is made today

The published examples and document 01's come first, then questions chosen for each rule and limit, then drawn ones. The input ends inside
its last question.
"""
import sys
from collections import Counter

import chosen_cases
import edge_matches
import edge_questions
import stored
from drawing import Draw
from drawn_questions import draw_bytes, draw_damaged, draw_question
from questions import Questions
from replay import framed, replies

SEED, SOUND, DAMAGED, ANY = 5, 2200, 700, 100

# how often each answer is given; main stops if it is otherwise
GIVEN = {'match': 2298, 'refused 1': 296, 'refused 2': 122, 'refused 3': 225, 'refused 4': 390, 'refused 5': 62, 'refused 6': 422,
         'refused 7': 415, 'refused 9': 775, 'refused 10': 509, 'refused 12': 533, 'cut off': 1}


def without_own_degrees(answer):
    """The text with two numbers less in each variable's line: what is published does not have them."""
    return ''.join(line.rsplit(' ', 2)[0] + '\n' if line[0] == 'x' else line for line in answer.splitlines(True))


def published(asked):
    for vector in stored.published()['vectors']:
        if vector['kind'] == 'match':
            question, answer = bytes.fromhex(vector['question_hex']), vector['stdout']
            asked.ask(question, answer.split('\n')[0])
            assert without_own_degrees(asked.answers[question]) == answer, vector['id']


def drawn(asked):
    draw = Draw(SEED)
    for kind, count in (draw_question, SOUND), (draw_damaged, DAMAGED), (draw_bytes, ANY):
        for _ in range(count):
            asked.ask(kind(draw))


def made():
    asked = Questions()
    for group in [published] + chosen_cases.GROUPS + edge_questions.GROUPS + edge_matches.GROUPS + [drawn]:
        group(asked)
    batch = b''.join(map(framed, asked.asked)) + framed(edge_questions.LISTING)[:-1]
    return {'stdin': batch, 'stdout': replies(batch)}


def tally(output):
    """How often each answer is given."""
    given = Counter()
    for line in output.decode().split('\n'):
        fields = line.split(' ')
        if fields[0] in ('match', 'refused', 'cut'):
            given[fields[0] if fields[0] == 'match' else ' '.join(fields[:2])] += 1
    return given


def main():
    files = made()
    given = tally(files['stdout'])
    if given != GIVEN:
        sys.exit('other answers than GIVEN says: %s' % dict(given))
    stored.keep('replay', files, sum(given.values()), 'questions')
    for answer, count in GIVEN.items():
        print('%6d %s' % (count, answer))


if __name__ == '__main__':
    main()
