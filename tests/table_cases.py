"""The cases of table_cases.txt, whose answers were made by hand. That file says how they are written."""
import os
import re

from call_cases import output_text
from stored import HERE


def indented():
    with open(os.path.join(HERE, 'table_cases.txt')) as stored:
        return [line.strip() for line in stored if line.startswith('    ')]


class Lists:
    """The lists that have a name, and those that are spelled out with them."""

    def __init__(self, lines):
        self.named = {}
        for text in re.findall(r'[A-Z]+ = [^=]*(?= [A-Z]+ =|$)', ' '.join(lines)):
            name, _, spelled = text.partition(' = ')
            self.named[name] = spelled

    def numbers(self, text):
        found = []
        for word in text.split():
            number, _, times = word.partition('*')
            found += self.numbers(self.named[word]) if word in self.named else [int(number)] * int(times or 1)
        return found

    def changed(self, text):
        """A list, and what is done to it."""
        spelled, *changes = text.split(',')
        found = self.numbers(spelled)
        for what, *numbers in map(str.split, changes):
            if what == 'first':
                found = found[:int(numbers[0])]
            else:
                found[int(numbers[0])] = int(numbers[2])
        return found

    def answer(self, text):
        said, output, after = text.partition(' output ')
        return said + output_text(self.numbers(after)) if output else said


def each(line):
    """A line for every number of its range."""
    said = re.search(r'(\d+) to (\d+) +\|', line)
    if not said:
        return [line]
    return [line[:said.start()] + str(n) + ' |' + line[said.end():] for n in range(int(said[1]), int(said[2]) + 1)]


def add(cases, lists, line):
    asked, of, told, _ = (column.strip() for column in line.split('|'))
    what, *words = asked.split()
    told = lists.answer(told)
    if what == 'write':
        arities, pairs = map(lists.changed, of.split(';'))
        cases.write(arities, pairs, int(words[1]), told)
    else:
        call = {'table': cases.is_table, 'degree': cases.symbol_degree, 'arity': cases.arity, 'pair': cases.pair}[what]
        call(bytes(lists.changed(of)), *map(int, words), told)


def by_hand(cases):
    lines = indented()
    lists = Lists([line for line in lines if '|' not in line])
    for line in lines:
        if '|' in line:
            for one in each(line):
                add(cases, lists, one)
