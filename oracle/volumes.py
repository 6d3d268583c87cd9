#!/usr/bin/env python3
"""Lines and volumes, from docs/VOLUME.md and document 02, item 4: each function takes and gives whole files as bytes. What texts are refused by, 14 and 1 to
6 in their edition, `brute` says of all of them at once. `volumes.py --selfcheck` tries this file by volumes_checked.py.

An answer is one of
    'written', the file        'counted', how many problems        'found', edition, text        'absent',
    'refused', the number, the line or row from 1 and 0 for none, and the failed test's name for 17, the bytes needed for 13, else None."""
import functools, os, sys
from collections import namedtuple
from scripts import load

HERE = os.path.dirname(os.path.abspath(__file__))
BUILT = HERE if os.path.exists(HERE + '/brute/brute') else os.path.dirname(HERE) + '/target/oracle'
lastmoves = load(BUILT, 'lastmoves')
ROOM, TEXT, CONTENTS, BODY = 13, 14, 17, 18
MOST = 65535
HEAD, ROW, LENGTH = 6, 8, 34
MARK, VERSION = b'VOL', 1
A, B = b'A', b'B'
HALVES = dict(zip('.PpNnBbRrQqKk', [0, *range(2, 14)]))  # 1, 14 and 15 are no man
MEN = {half: man for man, half in HALVES.items()}
RIGHTS = 'KQkq'
SIGNS = {'-': 64, '?': 65}
SQUARES = [file + rank for rank in '12345678' for file in 'abcdefgh']
STATES = {**{name: square for square, name in enumerate(SQUARES)}, **SIGNS}
SAID = {state: word for word, state in STATES.items()}
POINTS = {ord(str(n)): '.' * n for n in range(1, 9)}
Row = namedtuple('Row', 'number edition place length')


class Refused(Exception):
    """Its arguments are the answer behind the word."""


def answered(function):
    @functools.wraps(function)
    def answer(*args):
        try:
            return function(*args)
        except Refused as refusal:
            return ('refused', *refusal.args)
    return answer


# Files

@answered
def make(file, room=None):
    """Lines to volume."""
    texts = read_lines(file)
    if len(texts) > MOST:
        raise Refused(CONTENTS, MOST + 1, 'many')
    return bound([(number, A, text) for number, text in enumerate(texts, 1)], room)


@answered
def add(volume, number, edition, text, room=None):
    """A volume and one problem more to volume, of any text: 14 comes first."""
    if refusals([(edition, text)]) == [TEXT]:
        raise Refused(TEXT, 0, None)
    rows = read_table(volume, back=False)
    texts = read_bodies(volume, list(enumerate(rows, 1)))
    held = [(row.number, row.edition, each) for row, each in zip(rows, texts)]
    if not 1 <= number <= MOST:
        raise Refused(CONTENTS, len(rows) + 1, 'number')
    if held and number <= held[-1][0]:
        raise Refused(CONTENTS, len(rows) + 1, 'order')
    return bound(held + [(number, edition, text)], room)


@answered
def lines(volume, room=None):
    """Volume to lines."""
    rows = read_table(volume, back=True)
    texts = read_bodies(volume, list(enumerate(rows, 1)))
    return written(b''.join(text + b'\n' for text in texts), room)


@answered
def check(volume):
    rows = read_table(volume, back=False)
    return 'counted', len(read_bodies(volume, list(enumerate(rows, 1))))


@answered
def problem(volume, number):
    """All rows are tested, and one body."""
    rows = read_table(volume, back=False)
    for place, row in enumerate(rows, 1):
        if row.number == number:
            return ('found', row.edition, *read_bodies(volume, [(place, row)]))
    return 'absent',


# Lines and boards

def read_lines(file):
    """All lines are read before anything else is tested."""
    *texts, rest = file.split(b'\n')
    for line, refusal in enumerate(refusals([(A, text) for text in texts]), 1):
        if refusal == TEXT:
            raise Refused(TEXT, line, None)
    if rest:
        raise Refused(TEXT, len(texts) + 1, None)
    return texts


def refusals(boards):
    """Of editions and texts, 0 where one is accepted; `brute` is asked once for each edition."""
    known = {}
    for edition in (A, B):
        texts = list(dict.fromkeys(text for e, text in boards if e == edition))
        known.update(zip([(edition, text) for text in texts], map(int, lastmoves.run([lastmoves.BRUTE, 'accept', edition], texts))))
    return [known[board] for board in boards]


def refuse_boards(boards):
    """By the first that is refused, of the lines or rows that stand before them."""
    for (place, _, _), refusal in zip(boards, refusals([board[1:] for board in boards])):
        if refusal:
            raise Refused(refusal, place, None)


def bound(problems, room):
    refuse_boards([(place, edition, text) for place, (_, edition, text) in enumerate(problems, 1)])
    return written(volume_of(problems), room)


def written(file, room):
    if room is not None and len(file) > room:
        raise Refused(ROOM, 0, len(file))
    return 'written', file


# The layout

def number_of(part):
    return int.from_bytes(part, 'big')


def size(n):
    return HEAD + (ROW + LENGTH) * n


def start(n, i):
    """Where body i stands, counted from 0."""
    return HEAD + ROW * n + LENGTH * i


def volume_of(problems):
    n = len(problems)
    rows = [number.to_bytes(2, 'big') + edition + start(n, i).to_bytes(4, 'big') + bytes([LENGTH]) for i, (number, edition, _) in enumerate(problems)]
    return MARK + bytes([VERSION]) + n.to_bytes(2, 'big') + b''.join(rows) + b''.join(body_of(text) for _, _, text in problems)


def body_of(text):
    """Of a text in form."""
    men, turn, rights, state = text.decode().split(' ')
    halves = [HALVES[man] for man in men.translate(POINTS).replace('/', '')]
    flags = (turn == 'b') + sum(2 << i for i, right in enumerate(RIGHTS) if right in rights)
    return bytes([16 * high + low for high, low in zip(halves[::2], halves[1::2])] + [flags, STATES[state]])


def text_of(body):
    """None where the body has no board."""
    halves = [half for byte in body[:32] for half in (byte >> 4, byte & 15)]
    flags, state = body[32:]
    if not all(half in MEN for half in halves) or flags > 31 or state not in SAID:
        return None
    ranks = [ranked(halves[i:i + 8]) for i in range(0, 64, 8)]
    rights = ''.join(right for i, right in enumerate(RIGHTS) if flags >> 1 + i & 1)
    return ' '.join(['/'.join(ranks), 'wb'[flags & 1], rights or '-', SAID[state]]).encode()


def ranked(halves):
    """A rank of a text, the longest run of empty squares first."""
    rank = ''.join(MEN[half] for half in halves)
    for n in range(8, 0, -1):
        rank = rank.replace('.' * n, str(n))
    return rank


def read_table(volume, back):
    """The rows, the head and each of them tested; `back` to lines has two tests more."""
    failed = first_failed(head_tests(volume))
    if failed:
        raise Refused(CONTENTS, 0, failed)
    n, rows, before = number_of(volume[4:6]), [], 0
    for i in range(n):
        row = read_row(volume[HEAD + ROW * i:HEAD + ROW * (i + 1)])
        failed = first_failed(row_tests(row, before, n, i) + (back_tests(row, i) if back else []))
        if failed:
            raise Refused(CONTENTS, i + 1, failed)
        rows.append(row)
        before = row.number
    return rows


def read_row(part):
    return Row(number_of(part[:2]), part[2:3], number_of(part[3:7]), part[7])


def first_failed(tests):
    return next((name for name, holds in tests if not holds), None)


def head_tests(volume):
    """Bytes that the file does not have are 0."""
    head = volume[:HEAD].ljust(HEAD, b'\0')
    return [('mark', head[:3] == MARK),
            ('version', head[3] == VERSION),
            ('size', len(volume) == size(number_of(head[4:])))]


def row_tests(row, before, n, i):
    return [('number', row.number != 0),
            ('edition', row.edition in (A, B)),
            ('length', row.length == LENGTH),
            ('order', row.number > before),
            ('outside', row.place + row.length <= size(n)),
            ('overlap', row.place >= start(n, i)),
            ('gap', row.place <= start(n, i))]


def back_tests(row, i):
    return [('place', row.number == i + 1),
            ('edition-b', row.edition == A)]


def read_bodies(volume, rows):
    """The texts of numbered rows. 18 of a row comes before what a later one is refused by, and behind what an earlier one is."""
    bodies = [volume[row.place:row.place + row.length] for _, row in rows]
    texts = [text_of(body) for body in bodies]
    good = texts.index(None) if None in texts else len(texts)
    refuse_boards([(place, row.edition, text) for (place, row), text in zip(rows[:good], texts)])
    if good < len(rows):
        raise Refused(BODY, rows[good][0], None)
    return texts


if __name__ == '__main__':
    if sys.argv[1:] != ['--selfcheck']:
        sys.exit('usage: volumes.py --selfcheck')
    import volumes_checked
    sys.exit(volumes_checked.main())
