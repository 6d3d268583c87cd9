"""What `compare` asks about volumes: registers and volumes, whole and damaged. A case is a command, its file and an argument: of the program `volume` the
number that `show` is asked for, else None; of a call that is lent a slice, its room. The oracle has to be built before this is imported."""
import random
from collections import namedtuple
import editions_asked, volumes
from programs import load
from volumes import A, B, HEAD, LENGTH, MOST

gen = load('gen')
Case = namedtuple('Case', 'command file argument')
KINDS = ['few', 'many', 'promoted', 'castle', 'ep', 'doublestep', 'dense', 'mixed', 'multi', 'damaged', 'bad2', 'bad3', 'bad4', 'bad5', 'bad6']
EACH = 40  # texts of a kind
EXAMPLE = b'8/4k3/3P4/8/8/8/8/4R2K b - -\n4k3/8/8/8/3pP3/8/8/4K3 b - ?\n'
KINGS = b'4k3/8/8/8/8/8/8/4K3 w - -'
ROOKS = 'r3k2r/8/8/8/8/8/8/R3K2R %s %s %s'
RIGHTS = [''.join(c for i, c in enumerate('KQkq') if n >> i & 1) or '-' for n in range(16)]
LONGEST = 'rnbqkbnr/pppppppp/nbrqnbrq/NBRQNBRQ/nbrqnbrq/NBRQNBRQ/PPPPPPPP/RNBQKBNR b KQkq e4'
UNREAD = [b'', b' ', b'\t', b'\r', b'\0', b'\xff', b'-', b'VOL\1\0\0', b'8/8/8/8/8/8/8/8', b'P' * 82, b'8' * 5000, b'k' * 70000]
INSTEAD = [(b' ', b'\t'), (b'4k3', b'31k3'), (b'4k3', b'4k12'), (b'4k3', b'4k4'), (b'4k3', b'4k2'), (b'4k3', b'4\xff3'), (b'4k3', b'4\x003'), (b'w', b'W'),
           (b' - ', b' kK '), (b' - ', b'  '), (b'-', b'--')]
BEHIND = [b' ', b'\r', b'\t', b'\0', b'\xff', b' 0 1', b'-', b' ' * 60, b'?', b'e4']
LONG = [97, 98, 195, 390, 391, 780, 781, 1560, 1561, 3121, 8191, 8192]  # about where 4, 16 or 64 KiB of a volume or of its table end
TINY = [b'\0' * 6, b'\0' * 48, b'VOL\1\0\1', b'VOL\2\0\0', b'VOL\0\0\0', b'VOL\1\0\0\0', b'vol\1\0\0', b'VOL1\0\0', b'LOV\1\0\0', b'VOL\1\xff\xff', b'\n',
        EXAMPLE] + [b'VOL\1\0\0'[:i] for i in range(7)] + [b'\0' * i for i in range(1, 6)]
WRAPS = 32768  # problems more make a file longer by a multiple of 65,536 bytes


def formed():
    """All rights, all states that are accepted and many that are not, and the longest text."""
    texts = [ROOKS % (turn, rights, state) for turn in 'wb' for rights in RIGHTS for state in '-?']
    texts += [KINGS.decode()[:-1] + state for state in volumes.SQUARES]
    for square in range(24, 40):
        board, white = gen.arr(KINGS.decode().split(' ')[0]), square < 32
        board[square], board[square - 1 if square % 8 else square + 1] = 'Pp' if white else 'pP'
        texts.append(' '.join([gen.men(board), 'b' if white else 'w', '-', gen.name(square)]))
    return [text.encode() for text in texts + [LONGEST]]


class Texts:
    """Texts by edition and refusal, 0 for none, and those that B alone accepts, since they name a pawn without a neighbour."""
    def __init__(self, seed):
        self.rng, self.by = random.Random('%s/volumes' % seed), {}
        texts = [text for kind in KINDS for text in gen.make(seed, kind, EACH)] + formed()
        texts += UNREAD + [KINGS.replace(*pair) for pair in INSTEAD] + [text + more for text in (KINGS, LONGEST.encode()) for more in BEHIND]
        boards = [(edition, text) for text in texts for edition in (A, B)]
        boards += [(edition.encode(), text) for edition, text in editions_asked.stated(self.rng, texts)]
        for board, refusal in zip(boards, volumes.refusals(boards)):
            self.by.setdefault((board[0], refusal), []).append(board[1])
        self.lonely = sorted(set(self.by[B, 0]) - set(self.by[A, 0]))

    def good(self, edition=A):
        return self.rng.choice(self.lonely if edition == B and self.rng.random() < .3 else self.by[edition, 0])

    def bad(self, edition=A):
        heaps = [self.lonely] * (edition == A) + [self.by[edition, number] for number in range(2, 7)]
        return self.rng.choice(self.rng.choice(heaps))

    def unread(self):
        return self.rng.choice(self.by[A, 14])

    def lines(self, least=0):
        return [self.good() for _ in range(self.rng.randrange(least, 9))]

    def put(self, lines, more, after=0):
        """The lines with one more, anywhere behind so many, and where it is."""
        i = self.rng.randrange(after, len(lines) + 1)
        return lines[:i] + [more] + lines[i:], i + 1


def joined(lines):
    return b''.join(line + b'\n' for line in lines)


# Registers

def whole(t):
    return joined(t.lines())


def bad_board(t):
    return joined(t.put(t.lines(), t.bad())[0])


def two_bad(t):
    lines, after = t.put(t.lines(), t.bad())
    return joined(t.put(lines, t.bad(), after)[0])


def unread(t):
    return joined(t.put(t.lines(), t.unread())[0])


def two_unread(t):
    lines, after = t.put(t.lines(), t.unread())
    return joined(t.put(lines, t.unread(), after)[0])


def bad_before_unread(t):
    lines, after = t.put(t.lines(), t.bad())
    return joined(t.put(lines, t.unread(), after)[0])


def unread_before_bad(t):
    lines, after = t.put(t.lines(), t.unread())
    return joined(t.put(lines, t.bad(), after)[0])


def unended(t):
    return joined(t.lines()) + t.rng.choice([t.good(), t.good(), t.bad(), t.unread()])


def unended_behind(t):
    return t.rng.choice([bad_board, unread])(t) + t.good()


def with_blanks(t):
    lines = t.lines()
    return t.rng.choice([joined(lines) + b'\n', b'\n' + joined(lines), joined(t.put(lines, b'')[0]), joined(lines).replace(b'\n', b'\n\n'), b'\n\n'])


def with_returns(t):
    file, one = joined(t.lines(1)), joined(t.put(t.lines(), t.good() + b'\r')[0])
    return t.rng.choice([file.replace(b'\n', b'\r\n'), file.replace(b'\n', b'\r'), one, file[:-1] + b'\r\n', file + b'\r'])


def damaged(t):
    """A byte put in, changed or taken out, or an end cut off."""
    file, byte = joined(t.lines(1)), t.rng.choice([b'\0', b'\t', b'\r', b'\n', b'\xff', b' ', b'1', b'K', b'-', b'?'])
    i = t.rng.randrange(len(file))
    return t.rng.choice([file[:i] + byte + file[i:], file[:i] + byte + file[i + 1:], file[:i] + file[i + 1:], file[:i], file[i:]])


REGISTERS = [whole, whole, whole, bad_board, bad_board, two_bad, two_bad, unread, two_unread, bad_before_unread, unread_before_bad, unended, unended_behind,
             with_blanks, with_returns, damaged]


# Volumes

class Draft:
    """The parts of a volume, to be damaged one by one. A row is a list of its fields."""
    def __init__(self, problems):
        n = len(problems)
        self.mark, self.version, self.count, self.rest, self.lost = b'VOL', 1, n, b'', 0
        self.rows = [[number, edition, volumes.start(n, i), LENGTH] for i, (number, edition, _) in enumerate(problems)]
        self.bodies = [bytearray(volumes.body_of(text)) for _, _, text in problems]

    def file(self):
        rows = [number.to_bytes(2, 'big') + edition + place.to_bytes(4, 'big') + bytes([length]) for number, edition, place, length in self.rows]
        file = b''.join([self.mark, bytes([self.version]), self.count.to_bytes(2, 'big')] + rows + self.bodies)
        return file[:len(file) - self.lost] + self.rest

    def size(self):
        return volumes.size(len(self.rows))


def rising(rng, n):
    """Numbers that are the rows' own up to some row."""
    kept = rng.randrange(n + 1)
    free = range(kept + 1, max(kept + n + 2, rng.choice([0, 300, MOST + 1])))
    return list(range(1, kept + 1)) + sorted(rng.sample(free, n - kept))


def draft(t, n):
    """Half of them are made of old lines."""
    old = t.rng.random() < .5
    editions = [A] if old else t.rng.choice([[A], [A, A, A, B], [A, B], [B]])
    numbers = range(1, n + 1) if old else rising(t.rng, n)
    return Draft([(number, edition, t.good(edition)) for number in numbers for edition in [t.rng.choice(editions)]])


# Each damages row i of a draft, or the whole of it.

def zero_number(t, d, i):
    d.rows[i][0] = 0


def low_number(t, d, i):
    """That of the row before, or one below it."""
    before = d.rows[i - 1][0] if i else 0
    d.rows[i][0] = max(0, before - t.rng.choice([0, 0, 1, 256]))


def high_number(t, d, i):
    d.rows[i][0] = min(MOST, d.rows[i][0] + t.rng.choice([1, 2, 256, MOST]))


def other_edition(t, d, i):
    d.rows[i][1] = bytes([t.rng.choice(b'C@ab\0\1\2ABBBB\xc1\xff')])


def other_length(t, d, i):
    d.rows[i][3] = t.rng.choice([33, 35, 0, 1, 32, 40, 2, 162, 255])


def early_place(t, d, i):
    place = d.rows[i][2]
    d.rows[i][2] = max(0, place - t.rng.choice([1, 2, 33, 34, 35, 68, 256, place]))


def late_place(t, d, i):
    d.rows[i][2] = min(2 ** 32 - 1, d.rows[i][2] + t.rng.choice([1, 2, 33, 34, 35, 68]))


def far_place(t, d, i):
    """About the end of the file; far behind it; so that the right place, or the right end, comes out where high bits are lost."""
    size, place = d.size(), d.rows[i][2]
    d.rows[i][2] = t.rng.choice([size - LENGTH, size - LENGTH + 1, size - 1, size, place ^ 1 << t.rng.choice([16, 24, 31]), 2 ** 31, 2 ** 32 - 1,
                                 2 ** 32 - LENGTH, 2 ** 32 - t.rng.randrange(1, LENGTH + 1), size + 1000])


def swapped_rows(t, d, i):
    """Whole rows, or one field of theirs."""
    j, field = t.rng.randrange(len(d.rows)), t.rng.choice([0, 1, 2, None])
    if field is None:
        d.rows[i], d.rows[j] = d.rows[j], d.rows[i]
    else:
        d.rows[i][field], d.rows[j][field] = d.rows[j][field], d.rows[i][field]


def no_man(t, d, i):
    """The other man of the byte stays."""
    j, half, high = t.rng.randrange(32), t.rng.choice([1, 14, 15]), t.rng.random() < .5
    d.bodies[i][j] = half << 4 | d.bodies[i][j] & 15 if high else d.bodies[i][j] & 240 | half


def high_flags(t, d, i):
    d.bodies[i][32] |= t.rng.choice([32, 64, 128])


def high_state(t, d, i):
    d.bodies[i][33] = t.rng.choice([66, 67, 127, 128, 129, 192, 193, 255])


def other_state(t, d, i):
    d.bodies[i][33] = t.rng.choice([64, 65, t.rng.randrange(66)])


def bad_body(t, d, i):
    """A board that the row's edition refuses, or that B alone accepts."""
    text = t.bad(B if d.rows[i][1] == B else A) if t.rng.random() < .6 else t.rng.choice(t.lonely)
    d.bodies[i] = bytearray(volumes.body_of(text))


def other_mark(t, d, i):
    d.mark = t.rng.choice([b'VOM', b'vol', b'WOL', b'V\0L', b'\0\0\0'])


def other_version(t, d, i):
    d.version = t.rng.choice([0, 2, 255])


def other_count(t, d, i):
    n = d.count
    d.count = t.rng.choice([n + 1, max(0, n - 1), 0, MOST, (n + WRAPS) % 65536, n << 8 & MOST])


def other_end(t, d, i):
    d.rest = t.rng.choice([b'\0', b'\n', b'\0' * 34, b'\0' * 42, d.file(), b'VOL\1\0\0'])


def lost_end(t, d, i):
    d.lost = t.rng.choice([1, 2, 8, 34, 42, d.size() - HEAD])


IN_ROW = [zero_number, low_number, low_number, high_number, other_edition, other_edition, other_length, early_place, late_place, far_place, far_place]
IN_BODY = [no_man, no_man, high_flags, high_state, other_state, bad_body, bad_body, bad_body]
IN_HEAD = [other_mark, other_version, other_count, other_end, lost_end]


def damages(t, n):
    """Damages with their rows: none, one, several in one row, or several in any."""
    rng, i = t.rng, t.rng.randrange(n)
    way = rng.random()
    if way < .2:
        return []
    if way < .35:
        return [(rng.choice(IN_ROW + [swapped_rows]), i)]
    if way < .55:
        return [(damage, i) for damage in rng.sample(IN_ROW, rng.choice([2, 2, 3]))]
    if way < .9:
        return [(rng.choice(rng.choice([IN_ROW, IN_BODY, IN_BODY])), rng.randrange(n)) for _ in range(rng.choice([1, 2, 2, 3]))]
    return [(rng.choice(IN_HEAD), i), (rng.choice(IN_HEAD + IN_ROW), i)][:rng.choice([1, 2])]


def volume(t, n):
    d = draft(t, n)
    for damage, i in damages(t, n) if n else []:
        damage(t, d, i)
    return d.file()


# Cases

def asked_of(rng, volume):
    """The volume back to lines, checked, and one problem shown, most often one that it has."""
    n = min(volumes.number_of(volume[4:6]), 9)
    held = [volumes.number_of(volume[HEAD + 8 * i:HEAD + 8 * i + 2]) for i in range(n)] or [1]
    number = rng.choice(held * 4 + [0, 1, n, n + 1, max(held) + 1, MOST, MOST + 1, held[0] + MOST + 1])
    return [Case('lines', volume, None), Case('check', volume, None), Case('show', volume, number)]


def flipped(volume):
    """The volume with each bit of it changed, one at a time."""
    for i in range(8 * len(volume)):
        yield volume[:i // 8] + bytes([volume[i // 8] ^ 1 << i % 8]) + volume[i // 8 + 1:]


def cut(volume):
    """Its beginnings and its ends, and the volume with some bytes behind it."""
    for i in range(len(volume)):
        yield volume[:i]
        yield volume[i + 1:]
    for more in (b'\0', b'\n', b'VOL', b'\0' * LENGTH, volume):
        yield volume + more


def cases(seed, n):
    """Of the program `volume`: n registers and n volumes."""
    t = Texts(seed)
    for _ in range(n):
        yield Case('make', t.rng.choice(REGISTERS)(t), None)
        yield from asked_of(t.rng, volume(t, t.rng.randrange(7)))


def systematic(seed):
    """Two small volumes damaged in each place, one of them made of old lines; the smallest files, for each command; each accepted text alone."""
    t = Texts(seed)
    example = volumes.make(EXAMPLE)[1]
    other = Draft([(2, B, t.good(B)), (300, A, t.good()), (MOST, B, t.good(B))]).file()
    for each in (example, other):
        for file in [each, *flipped(each), *cut(each)]:
            yield from asked_of(t.rng, file)
    for file in TINY:
        yield Case('make', file, None)
        yield from asked_of(t.rng, file)
    for text in formed():
        yield Case('make', text + b'\n', None)


def old(lines):
    """The volume of lines that are accepted."""
    return Draft([(number, A, text) for number, text in enumerate(lines, 1)])


def large(seed):
    """Long registers and volumes, whole and with an error in some place, and the longest."""
    t = Texts(seed)
    for n in LONG:
        lines = [t.good() for _ in range(n)]
        yield Case('make', joined(lines), None)
        yield Case('make', joined(t.put(lines, t.rng.choice([t.bad(), t.unread()]))[0]), None)
        yield Case('lines', old(lines).file(), None)
        yield from asked_of(t.rng, volume(t, n))
    yield from longest(t)


def longest(t):
    lines = [t.good() for _ in range(MOST)]
    files = [lines, lines + [t.good()], [t.bad()] + lines, lines + [t.bad()] * 3, lines + [t.good(), t.unread(), t.good()], [t.bad()] + lines + [b'']]
    yield from [Case('make', joined(file), None) for file in files]
    yield Case('make', joined(lines) + t.good(), None)
    d = old(lines)
    yield Case('lines', d.file(), None)
    yield Case('show', d.file(), MOST)
    bad_body(t, d, MOST - 1)
    yield Case('check', d.file(), None)
    late_place(t, d, MOST - 2)
    yield Case('lines', d.file(), None)


def more(t):
    """A volume, most often a sound one, and one problem: its number most often above those of the volume, its board accepted, refused or no text."""
    rng = t.rng
    n = rng.randrange(5)
    file = draft(t, n).file() if rng.random() < .8 else volume(t, n)
    last = volumes.number_of(file[HEAD + 8 * n - 8:HEAD + 8 * n - 6]) if n else 0
    edition = rng.choice([A, B])
    number = rng.choice([last + 1] * 6 + [rng.randrange(last, MOST + 1), 0, last, max(0, last - 1), MOST, MOST + 1, last + MOST + 1])
    text = t.good(edition) if rng.random() < .7 else rng.choice([t.bad(edition), rng.choice(t.lonely), b'8/8/8 w - -'])
    return file, number, edition, text


def lent(seed, n):
    """Of calls that are lent a slice: its room is what is needed, a byte less, or another."""
    t = Texts(seed)
    makers = [('make', volumes.make, lambda t: [whole(t)]), ('make', volumes.make, lambda t: [bad_board(t)]), ('add', volumes.add, more),
              ('add', volumes.add, more), ('lines', volumes.lines, lambda t: [volumes.make(whole(t))[1]]),
              ('lines', volumes.lines, lambda t: [volume(t, t.rng.randrange(7))])]
    for _ in range(n):
        command, answer, made = t.rng.choice(makers)
        given = made(t)
        said = answer(*given)
        need = len(said[1]) if said[0] == 'written' else 0
        yield Case(command, given if command == 'add' else given[0], t.rng.choice([need, need, max(0, need - 1), need + 1, 0, need // 2]))


# Questions to `ask`

VERBS = {'make': b'bind', 'lines': b'unbind', 'check': b'contents', 'show': b'problem', 'add': b'add'}
ROOMS = [b'-', b'-', b'16384', b'16385', b'65536', b'18446744073709551616']  # all of the slice
ENDS = [b'0', b'F', b'g', b'0g', b'g0', b'-', b' ', b' 00', b'\r', b'\0']  # behind the last byte, and none themselves


def question(rng, case):
    if case.command == 'add':
        file, number, edition, text = case.file
        return b'add\t%d %d %s %s %s' % (case.argument, number, edition, file.hex().encode() or b'-', text)
    digits = case.file.hex().encode() or b'-'
    digits = rng.choice([digits, digits, digits.upper(), digits.title()]) + (rng.choice(ENDS) if rng.random() < .05 and digits != b'-' else b'')
    whole = [] if case.command == 'check' else [rng.choice(ROOMS)]
    return VERBS[case.command] + b'\t' + b' '.join((whole if case.argument is None else [b'%d' % case.argument]) + [digits])


def full(seed):
    """Lines and volumes about where the 16,384 bytes end that are read, and that may be written."""
    t = Texts(seed)
    for n in (389, 390, 630, 631):
        yield Case('make', joined([KINGS] * n), None)
    for n in (389, 390):
        for lines in ([KINGS] * n, [t.good() for _ in range(n)]):
            file = old(lines).file()
            yield from [Case('lines', file, None), Case('check', file, None), Case('show', file, n)]


def questions(seed, n, every):
    """n lent slices, a fourth as many registers and volumes, and with `every` each place damaged of two volumes, and the longest; by their verbs."""
    rng = random.Random('%s/questions' % seed)
    made = [*lent(seed, n), *cases(seed, n // 4), *([*systematic(seed), *full(seed)] if every else [])]
    lines = [question(rng, case) for case in made]
    return {verb.decode(): [line for line in lines if line.startswith(verb + b'\t')] for verb in VERBS.values()}


def answered(line, answer):
    """What is counted of an answer of `ask`: the verb, its word, a refusal's number, and the name of a failed test."""
    word, *rest = answer.decode().split()
    verb = line.split(b'\t')[0].decode()
    if word != 'refused':
        return verb + (' absent' if word == 'absent' else ' answered')
    return ' '.join([verb, word, rest[0]] + rest[2:])


def kind(said):
    """What is counted of the judge's answer: its word, a refusal's number, and the name of a failed test."""
    word, *rest = said
    if word != 'refused':
        return word
    number, _, extra = rest
    return ' '.join([word, str(number)] + [extra] * (number == volumes.CONTENTS))
