"""The six-field records of document 02, item 1, in plain Python: men, turn, rights, the square passed over, and two counters. What the first four
fields are refused by, in the edition asked for, `brute` says of the text that they mean."""
import re

TEXT, COUNTER, UNKNOWN = 14, 15, 16
PASSED_OVER = re.compile(rb'-|[a-h][36]')
DIGITS = re.compile(rb'0|[1-9][0-9]*')
LOWEST, HIGHEST = (0, 1), 9999
PAWN_OF, PASSED_BY = bytes.maketrans(b'36', b'45'), bytes.maketrans(b'45', b'36')  # the pawn has gone one square on


def meant(record):
    """The text and the two counters of a record; None where the last three fields have not the form, or there are not six."""
    fields = record.split(b' ')
    if len(fields) != 6 or not PASSED_OVER.fullmatch(fields[3]) or not all(DIGITS.fullmatch(c) for c in fields[4:]):
        return None
    men, turn, rights, passed, *counters = fields
    return b' '.join([men, turn, rights, passed.translate(PAWN_OF)]), counters


def in_range(counters):
    """A counter may have any number of digits, so a long one is not made a number."""
    return all(len(c) <= len(str(HIGHEST)) and low <= int(c) <= HIGHEST for c, low in zip(counters, LOWEST))


def read(accept, records):
    """Of each record its refusal, 0 for none, its text and its counters; `accept(texts)` says their refusals, 14 among them."""
    found = [meant(r) for r in records]
    refusals = iter(accept([f[0] for f in found if f]))
    return [verdict(f, next(refusals)) if f else (TEXT, b'', []) for f in found]


def verdict(found, refusal):
    text, counters = found
    if refusal != TEXT and not in_range(counters):
        refusal = COUNTER
    return refusal, text, counters


def write(text, counters):
    """Of an accepted text its refusal and its record. A counter is a number up to 65,535, also one that the reader refuses."""
    first, state = text.rsplit(b' ', 1)
    if state == b'?':
        return UNKNOWN, b''
    return 0, b' '.join([first, state.translate(PASSED_BY)] + [b'%d' % c for c in counters])
