"""Exchange records, lists of known strings and list files drawn at random, the same on every machine, and damage to them."""
from drawing import with_byte
from records import framed, laid_out, lent, list_file, name_field, parts, put

STRINGS = [b'Strauss, Johann,', b'Strauss, J.', 'Strauß, Johann,'.encode(), b'1804-1849', b'1825-1899', b'A', b'AB', b'B', b'BA', b'',
           b'\0', b'A\x1eB', b'A\x1dB', b'\xff', b' ', b'A ', b'100', b'1804-', b'A\rB', b'\r']
MARKS = [0x1d, 0x1e, 0x1f]
BYTES = MARKS + [0, 0x0a, 0x0d, 0x20, 0x2f, 0x30, 0x31, 0x39, 0x3a, 0x61, 0x64, 0xff]


# ---- records

def draw_text(draw, known):
    if known and draw.chance(80):
        return draw.one(known)[0]
    return draw.one(STRINGS) + draw.one([b'', b'', b',', b'\x1e', b'\x1f', b'?'])


def draw_content(draw, known):
    """A field as a name mostly is, or some subfields in any order."""
    if draw.chance(50):
        return name_field(draw_text(draw, known), draw_text(draw, known) if draw.chance(70) else None)
    codes = [draw.one([b'a', b'a', b'a', b'd', b'd', b'c', b'A', b'', b'\x1e']) for _ in range(draw.below(5))]
    indicators = draw.one([b'1 ', b'1 ', b'1 ', b'  ', b'\x1fa', b'1', b''])
    return indicators + draw.one([b'', b'', b'', b'junk']) + parts(*(code + draw_text(draw, known) for code in codes))


def draw_record(draw, known):
    """A record with a whole frame. Its directory may be in another order than its fields, and name them twice, or not at all."""
    tags = [draw.one([b'100', b'100', b'100', b'001', b'400', b'1X0', b'110']) for _ in range(draw.below(5))]
    if draw.chance(60):
        tags.append(b'100')
    body, places = laid_out([draw_content(draw, known) for _ in tags])
    entries = [(tag, *place) for tag, place in zip(tags, places)]
    if entries and draw.chance(30):
        entries = [draw.one(entries) for _ in range(draw.below(6))]
    return framed(entries, body, draw.one([b'nz  a22n  4500', bytes(14), b'\xff' * 14]))


def shifted(record, at, count, by):
    """The record with the number of so many digits made higher or lower. What is no number counts as 0."""
    found = record[at:at + count]
    told = (int(found) if found.isdigit() else 0) + by
    return put(record, at, b'%0*d' % (count, min(max(told, 0), 10 ** count - 1)))


def draw_entry(draw, record):
    """Where an entry of the directory begins, or where the first would."""
    base = record[12:17]
    return 24 + 12 * draw.below(max(1, (int(base) - 25) // 12)) if base.isdigit() else 24


def draw_damaged(draw, record):
    """The record with a number, a mark or any byte changed, or cut off, or with a byte more."""
    how, at, byte = draw.below(7), draw.below(len(record) + 1), draw.one(BYTES)
    if how == 0:
        return record[:at]
    if how == 1:
        return record[:at] + bytes([byte]) + record[at:]
    if how == 2:
        return with_byte(record, at, byte)
    if how == 3:
        return with_byte(record, draw.one([i for i, mark in enumerate(record) if mark in MARKS] or [0]), byte)
    if how == 4:
        return shifted(record, draw.one([0, 12]), 5, draw.one([-12, -1, 1, 12, 100]))
    at, count = draw.one([(3, 4), (7, 5)])
    at += draw_entry(draw, record)
    if how == 5:
        return shifted(record, at, count, draw.one([-9999, -1, 1, 2, 12, 100]))
    return with_byte(record, at + draw.below(count), byte)


def draw_either(draw, known):
    """Whole or damaged, some more than once."""
    record = draw_record(draw, known)
    while draw.chance(45):
        record = draw_damaged(draw, record)
    return record


# ---- lists

def draw_known(draw, absent):
    """A list that is sound mostly."""
    known = []
    for _ in range(draw.below(9)):
        string, number = draw.one(STRINGS), draw.one([1, 2, 3, 4, 500, 65535])
        if string not in [before for before, _ in known] or draw.chance(2):
            known.append((string, absent if draw.chance(1) else number))
    return sorted(known) if draw.chance(30) else known


def draw_lent(draw, known):
    """The list as it is lent, one in four in an unusual way."""
    text, ends, numbers = lent(known)
    how = draw.below(16)
    if how == 0:
        numbers = numbers + [draw.below(65536)]
    elif how == 1:
        ends = ends + [draw.one([0, 1, len(text), len(text) + 1, (1 << 32) - 1])]
    elif how == 2 and ends:
        at = draw.below(len(ends))
        ends = ends[:at] + [draw.one([0, ends[at] + 1, len(text), (1 << 32) - 1])] + ends[at + 1:]
    elif how == 3:
        text = text[:draw.below(len(text) + 1)]
    return text, ends, numbers


# ---- list files

def draw_bad_file(draw, symbol, absent, known):
    """A list file with one change: it may have another shape then, or not."""
    whole = list_file(symbol, absent, known)
    lines, at = whole.split(b'\n')[:-1], draw.below(len(whole))
    line = draw.below(len(lines))
    how = draw.below(8)
    if how == 0:
        return whole[:at]
    if how == 1:
        return with_byte(whole, at, draw.one(BYTES))
    if how == 2:
        return whole[:at] + bytes([draw.one(BYTES)]) + whole[at:]
    if how == 3:
        lines[line] = draw.one([b'0', b' ', b'+', b'-', b'00', b'\t']) + lines[line]
    elif how == 4:
        lines[line] = draw.one([b'65536', b'65535', b'99999', b'65540', b'100000', b'4294967296', b'18446744073709551616', b'']) + b' ' + lines[line]
    elif how == 5:
        lines.insert(line, b'')
    elif how == 6:
        lines[line] = lines[line].replace(b' ', draw.one([b'', b'  ', b'\t', b'\r']), 1)
    else:
        lines[line] += draw.one([b' ', b'\r', b'0', b' 1', b'\0'])
    return b''.join(each + b'\n' for each in lines)
