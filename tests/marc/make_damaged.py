#!/usr/bin/env python3
"""Damaged copies of the first record that yaz made, one damage each; the file's name says which."""
import os

os.chdir(os.path.dirname(os.path.abspath(__file__)))
with open('made/yaz-utf8.mrc', 'rb') as made:
    five = made.read()
first = five[:int(five[:5])]
size, base = len(first), int(first[12:17])
second = five[size:size + int(five[size:size + 5])]
third = five[size + len(second):][:125]
ENTRY = 48                                        # where the third entry begins, that of the 100 field
LENGTH, START = int(first[ENTRY + 3:ENTRY + 7]), int(first[ENTRY + 7:ENTRY + 12])
NAME = first.index(b'Johann')


def put(at, new, record=first):
    return record[:at] + new + record[at + len(new):]


def two_fields(name, dates):
    """A record of a control number and a name, with all lengths right."""
    control, field = b'a0001\x1e', b'1 \x1fa' + name + b'\x1fd' + dates + b'\x1e'
    directory = b'001%04d00000100%04d%05d\x1e' % (len(control), len(field), len(control))
    body = directory + control + field + b'\x1d'
    return b'%05dnz  a22%05dn  4500' % (24 + len(body), 24 + len(directory)) + body


def without_an_entry():
    """The second field stays, as an editor leaves it that deletes the entry alone."""
    rest = first[:36] + first[ENTRY:]
    return b'%05d' % len(rest) + rest[5:12] + b'%05d' % (base - 12) + rest[17:]


DAMAGED = {
    'newline-behind': first + b'\n',
    'crlf-behind': first + b'\r\n',
    'newline-between': first + b'\n' + second + b'\n' + third + b'\n',
    'two-records': first + second,
    'byte-order-mark': b'\xef\xbb\xbf' + first,
    'blank-in-front': b' ' + first,
    'cut-off-by-one': first[:-1],
    'cut-off-at-99': first[:99],
    'cut-off-in-leader': first[:20],
    'empty': b'',
    'leader-alone': first[:24],
    'length-one-more': put(0, b'%05d' % (size + 1)),
    'length-blank-padded': put(0, b'%5d' % size),
    'length-sign': put(0, b'+0141'),
    'length-letters': put(0, b'00I4I'),
    'base-zero': put(12, b'00000'),
    'base-one-less': put(12, b'%05d' % (base - 1)),
    'base-twelve-more': put(12, b'%05d' % (base + 12)),
    'base-blank-padded': put(12, b'%5d' % base),
    'entry-length-zero': put(ENTRY + 3, b'0000'),
    'entry-length-one-more': put(ENTRY + 3, b'%04d' % (LENGTH + 1)),
    'entry-length-one-less': put(ENTRY + 3, b'%04d' % (LENGTH - 1)),
    'entry-length-letter': put(ENTRY + 3, b'003l'),
    'entry-start-far': put(ENTRY + 7, b'99999'),
    'entry-start-one-more': put(ENTRY + 7, b'%05d' % (START + 1)),
    'entry-start-blank': put(ENTRY + 7, b'   47'),
    'directory-end-missing': put(base - 1, b' '),
    'directory-in-reverse': first[:24] + first[ENTRY:ENTRY + 12] + first[36:ENTRY] + first[24:36] + first[ENTRY + 12:],
    'field-end-missing': put(size - 2, b' '),
    'first-field-end-missing': put(base + 5, b' '),
    'fields-overlap': put(31, first[ENTRY + 7:ENTRY + 12], put(27, first[ENTRY + 3:ENTRY + 7])),
    'field-without-entry': without_an_entry(),
    'record-end-missing': put(size - 1, b'\x1e'),
    'record-end-newline': put(size - 1, b'\n'),
    'tag-letters': put(ENTRY, b'10A'),
    'tag-blank': put(ENTRY, b'1 0'),
    'delimiters-as-dollars': first.replace(b'\x1f', b'$'),
    'end-inside-name': put(NAME, b'\x1e'),
    'record-end-inside-name': put(NAME, b'\x1d'),
    'zero-byte-in-name': put(NAME, b'\0'),
    'ten-indicators': put(10, b'9'),              # the leader's number of indicators, which is not tested
    'unimarc-map': put(20, b'450 '),              # the leader's last bytes, likewise
    'latin-1': two_fields('Strauß, Johann,'.encode('latin-1'), b'1825-1899'),
    'blank-behind-name': two_fields(b'Strauss, Johann, ', b'1804-1849'),
}

for name, record in DAMAGED.items():
    with open('damaged/%s.mrc' % name, 'wb') as out:
        out.write(record)
