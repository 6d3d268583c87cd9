"""The verdict on an entrant's solution, from document 02, item 10. A line is a retraction as `lastmoves` shows it, without the sign of the lists; since
a retraction has one row in form, rows are compared as bytes."""
import re

MOST = 4096
FORM = re.compile(rb'[a-h][1-8][a-h][1-8] [.PNBRQ] [.=]')


def verdict(strict, lines):
    """Of the lines sent with an accepted position; `strict` has the rows of its strict list, in strict order."""
    return unread(lines) or wrong(set(strict), lines) or lacking(strict, set(lines)) or b'complete'


def unread(lines):
    """All lines are read before any is judged."""
    for number, line in enumerate(lines, 1):
        if not FORM.fullmatch(line):
            return b'refused 23 %d' % number
        if number > MOST:
            return b'refused 24'


def wrong(strict, lines):
    """The first line that is no strict retraction, or repeats an earlier line."""
    earlier = set()
    for number, line in enumerate(lines, 1):
        if line not in strict or line in earlier:
            return b'wrong %d' % number
        earlier.add(line)


def lacking(strict, sent):
    """The first strict retraction that nobody sent."""
    for row in strict:
        if row not in sent:
            return b'incomplete ' + row
