"""Questions to the asking program, gathered from cases of the match."""
import sys

import reference


class Questions:
    """Keeps each question once. Where another source tells the answer, or its first line, the reference has to agree with it."""

    def __init__(self):
        self.asked, self.answers = [], {}

    def ask(self, question, told=None):
        if question not in self.answers:
            self.answers[question] = reference.ask(question)
            self.asked.append(question)
        answer = self.answers[question]
        if told is not None and not answer.startswith(told + '\n'):
            sys.exit('question %.300s: %.300s, not %.300s' % (question.hex(), answer, told))

    def match(self, table, pattern, heading, cut, told=None, spans=128, sets=None):
        """A case of the call. What it says of buffers is no matter here: the program's are long enough."""
        if told != 'refused 8 0':
            self.ask(reference.question(cut, pattern, heading, table), told)

    def no_question(self, *case):
        """The program cannot be asked this."""

    symbol_degree = degree = subterm = nearer = widen = no_question
