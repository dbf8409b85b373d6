"""Exchange records as one writes them, damage to them, lists of known strings as they are lent, and the records that are stored in marc/."""
import os

from drawing import with_byte
from stored import HERE

# the strings of the records in marc/, with numbers: a name that ends without a comma has its form with one as a synonym
SYMBOL, ABSENT = 0, 9
KNOWN = [('Strauss, Johann,', 1), ('Strauss, J.', 1), ('Strauß, Johann,', 2), ('Dvořák, Antonín,', 3), ('1804-1849', 4), ('1825-1899', 5),
         ('1841-1904', 6)]
KNOWN = [(string.encode(), number) for string, number in KNOWN]


# ---- records

def framed(entries, body, leader=b'nz  a22n  4500'):
    """A record with these entries (tag, length, start) and these bytes behind the directory. The leader's bytes are those without a test."""
    directory = b''.join(tag + b'%04d%05d' % (length, start) for tag, length, start in entries) + b'\x1e'
    base = 24 + len(directory)
    return b'%05d' % (base + len(body) + 1) + leader[:7] + b'%05d' % base + leader[7:] + directory + body + b'\x1d'


def laid_out(contents):
    """The bytes of these fields, and where each lies: length and start, the mark with it."""
    starts = [sum(len(content) + 1 for content in contents[:k]) for k in range(len(contents))]
    return b''.join(content + b'\x1e' for content in contents), [(len(content) + 1, start) for content, start in zip(contents, starts)]


def record(*fields, leader=b'nz  a22n  4500'):
    """A record of fields (tag, content) one behind the other."""
    body, places = laid_out([content for _, content in fields])
    return framed([(tag, *place) for (tag, _), place in zip(fields, places)], body, leader)


def parts(*codes_and_texts):
    """Subfields, each given as its code and text in one."""
    return b''.join(b'\x1f' + part for part in codes_and_texts)


def name_field(name, dates=None):
    return b'1 ' + parts(b'a' + name, *([] if dates is None else [b'd' + dates]))


def put(data, at, new):
    return data[:at] + new + data[at + len(new):]


def swapped(data, mark, other):
    """The data with one byte in place of another, wherever it stands."""
    return data.replace(bytes([mark]), bytes([other]))


def each_without_a_digit(data, at, count):
    """Copies of the data in which one of so many digits is none."""
    for k in range(count):
        yield with_byte(data, at + k, b' /:A+-.\0\x1e\xb0'[(at + k) % 10])


# ---- lists

def lent(known):
    """The text, where each string ends, and the numbers."""
    strings = [string for string, _ in known]
    return b''.join(strings), [sum(map(len, strings[:k + 1])) for k in range(len(strings))], [number for _, number in known]


def list_file(symbol, absent, known):
    return b'%d %d\n' % (symbol, absent) + b''.join(b'%d %s\n' % (number, string) for string, number in known)


# ---- what is stored

def marc_path(*names):
    return os.path.join(HERE, 'marc', *names)


def marc_files(folder):
    """The files of a folder by name."""
    found = {}
    for name in sorted(os.listdir(marc_path(folder))):
        if name.endswith('.mrc'):
            with open(marc_path(folder, name), 'rb') as stored:
                found[name[:-4]] = stored.read()
    return found


def read_by_others():
    """Name and dates of the five records as Catmandu reads them."""
    with open(marc_path('made', 'catmandu.tsv'), 'rb') as stored:
        return [line.split(b'\t')[1:] for line in stored.read().splitlines()[1:]]
