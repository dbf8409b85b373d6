"""The stored input and output of a program crate: written, or held against what is made today."""
import json
import os
import sys

HERE = os.path.dirname(os.path.abspath(__file__))


def published():
    """The published examples: tables by name, and vectors over them."""
    with open(os.path.join(HERE, 'published.json')) as stored:
        return json.load(stored)


def place(crate, name):
    return os.path.join(HERE, '..', 'crates', crate, name)


def content(path):
    try:
        with open(path, 'rb') as stored:
            return stored.read()
    except FileNotFoundError:
        return None


def keep(crate, files, count, said):
    """Writes the files, which hold so many of what is said; with the argument --check, says in one line whether they stand there."""
    if sys.argv[1:] == ['--check']:
        unlike = [name for name in files if content(place(crate, name)) != files[name]]
        print('not as made today: ' + ', '.join(unlike) if unlike else '%d %s, stored as made today' % (count, said))
        sys.exit(1 if unlike else 0)
    for name, data in files.items():
        os.makedirs(os.path.dirname(place(crate, name)), exist_ok=True)
        with open(place(crate, name), 'wb') as stored:
            stored.write(data)
    print('%d %s, %d bytes asked, %d bytes answered' % (count, said, len(files['stdin']), len(files['stdout'])))
