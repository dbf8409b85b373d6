"""The rules of exchange records in plain Python, for test vectors.

Written from documents 01 and 02 alone, as reference.py is, and slow on purpose. A record is bytes; a list of known strings is lent as a
triple: the text, where in it each string ends, and the numbers. A refusal is the exception Refused with its number and place.
"""
from reference import Refused

LEADER, ENTRY = 24, 12                            # bytes of the leader, and of an entry of the directory
SHORTEST = LEADER + 2                             # a record without fields: the directory's mark and the record's
FIELD_END, RECORD_END, DELIMITER = 0x1e, 0x1d, 0x1f
NODES = 3                                         # of a heading: its symbol, the name, the dates


# ---- the frame

def digits(record, at, count):
    """The number that so many digits write, None where they are not all digits."""
    found = record[at:at + count]
    return int(found) if len(found) == count and found.isdigit() else None


def test(passed, place):
    if not passed:
        raise Refused(17, place)


def base_address(record):
    """Behind the directory's mark, so that the directory is a whole number of entries."""
    base = digits(record, 12, 5)
    test(base is not None and base >= LEADER + 1 and (base - LEADER - 1) % ENTRY == 0 and base < len(record), 12)
    return base


def read_entry(record, base, at):
    """An entry of the directory: the tag, and where its field begins and ends."""
    length = digits(record, at + 3, 4)
    test(length is not None and length > 0, at + 3)
    start = digits(record, at + 7, 5)
    test(start is not None and base + start + length <= len(record) - 1, at + 7)
    return record[at:at + 3], base + start, base + start + length


def read_fields(record):
    """The fields in the directory's order: each tag, and what stands before the field's mark."""
    test(len(record) >= SHORTEST and digits(record, 0, 5) == len(record), 0)
    base = base_address(record)
    entries = [read_entry(record, base, at) for at in range(LEADER, base - 1, ENTRY)]
    for mark in [base - 1] + [end - 1 for _, _, end in entries]:
        test(record[mark] == FIELD_END, mark)
    test(record[-1] == RECORD_END, len(record) - 1)
    return [(tag, record[start:end - 1]) for tag, start, end in entries]


def subfields(content):
    """Codes and texts behind the two indicators. What stands before the first delimiter is passed over, and a delimiter without a code."""
    parts = content[2:].split(bytes([DELIMITER]))[1:]
    return [(part[:1], part[1:]) for part in parts if part]


def first(wanted, listed):
    return next((found for name, found in listed if name == wanted), None)


# ---- the known strings

def known_strings(text, ends, numbers):
    """The strings with their numbers. Each begins where the one before it ends, even where that is beyond the text or further on."""
    starts = [0] + list(ends)
    return [(text[start:end], number) for start, end, number in zip(starts, ends, numbers)]


def check_list(known, absent):
    before = set()
    for entry, (string, number) in enumerate(known):
        if string in before or number == absent:
            raise Refused(19, entry)
        before.add(string)


def look_up(known, string, place):
    number = first(string, known)
    if number is None:
        raise Refused(22, place)
    return number


# ---- the call

def record_heading(record, known, absent):
    """The numbers of a record's name and dates, by a list that was checked."""
    content = first(b'100', read_fields(record))
    if content is None:
        raise Refused(20, 0)
    parts = subfields(content)
    name, dates = first(b'a', parts), first(b'd', parts)
    if name is None:
        raise Refused(21, 0)
    return look_up(known, name, 0), absent if dates is None else look_up(known, dates, 1)


def heading(record, lent, symbol, absent, room):
    """The nodes that are written to an output of so many numbers."""
    known = known_strings(*lent)
    check_list(known, absent)
    if room < NODES:
        raise Refused(8, 0)
    return [symbol, *record_heading(record, known, absent)]
