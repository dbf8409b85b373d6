#!/usr/bin/env python3
"""Makes the files of README's second example, in examples/: the question files, and the exchange records and the list from which its headings come; with
what the references answer to them.

    make_examples.py            writes the files
    make_examples.py --check    says whether the stored files are what is made today

Symbols: 0 joins two headings, 1 is a heading of a name and dates, 2 and 3 are two forms of a name, 4 the father's dates, 5 the son's, and 6 stands
where a record has no dates. The pattern asks for one form of both headings, which are those of the first two records.
"""
import os
import sys

import headings_of
import reference
from drawing import X
from records import list_file, name_field, record
from stored import HERE, content

FOLDER = os.path.join(HERE, '..', 'examples')
ARITIES = [2, 2, 0, 0, 0, 0, 0]
FATHER, SON = [1, 2, 4], [1, 3, 5]

# the degree of absent dates with given ones, and what is to be answered
EXAMPLES = {
    'father-and-son': (600, 'match 600 600\nx0 3 600 600\n1\n2 3\n6\n'),
    'kept-apart': (400, 'refused 10 0\n'),
}

# the strings that the example's list knows, and its records: from the third a byte is missing
STRINGS = [(b'1880-1950', 4), (b'1910-1990', 5), (b'Rossi, C.', 3), (b'Rossi, C.,', 3), (b'Rossi, Carlo', 2), (b'Rossi, Carlo,', 2)]
NAMES = [(b'Rossi, Carlo,', b'1880-1950'), (b'Rossi, C.,', b'1910-1990'), (b'Rossi, C.,', b'1910-1990'), (b'Rossi, Carlo', None), (b'Rossi, Carla,', b'1910-1990')]
HEADINGS = b'record 0\nheading 1 2 4\nrecord 1\nheading 1 3 5\nrecord 2\nrefused 17 0\nrecord 3\nheading 1 2 6\nrecord 4\nrefused 22 0\n'


def records_made():
    listed = list_file(1, 6, STRINGS)
    records = [record((b'001', b'a%04d' % k), (b'100', name_field(name, dates))) for k, (name, dates) in enumerate(NAMES, 1)]
    records[2] = records[2].replace(b'C.,', b'C.')
    data = b''.join(records)
    text = headings_of.replies(listed, data)
    if text != HEADINGS:
        sys.exit('rossi: %s, not %s' % (text, HEADINGS))
    return {'rossi.list': listed, 'rossi.mrc': data, 'rossi.headings': text}


def made():
    files = records_made()
    for name, (absent, told) in EXAMPLES.items():
        table = reference.table_bytes(ARITIES, [(2, 3, 800), (4, 6, absent), (5, 6, absent)])
        asked = reference.question(600, [0, X, X], [0] + FATHER + SON, table)
        answer = reference.ask(asked)
        if answer != told:
            sys.exit('%s: %s, not %s' % (name, answer, told))
        files[name + '.question'], files[name + '.answer'] = asked, answer.encode()
    return files


def main():
    files = made()
    if sys.argv[1:] == ['--check']:
        unlike = [name for name, data in files.items() if content(os.path.join(FOLDER, name)) != data]
        print('not as made today: ' + ', '.join(unlike) if unlike else '%d files, stored as made today' % len(files))
        sys.exit(1 if unlike else 0)
    for name, data in files.items():
        with open(os.path.join(FOLDER, name), 'wb') as stored:
            stored.write(data)


if __name__ == '__main__':
    main()
