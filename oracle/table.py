"""The study table of document 02, item 9, in plain Python: two desks that keep boards in one list of words. Whether a board is accepted, and its
text, `brute` says; `answers` asks it once for all the boards of all questions, which are of edition A, and once in each edition for all that was
fetched."""

DESK, QUOTA, ABSENT, TEXT = 20, 21, 22, 14
HEAD, PLACE = 2, 16  # the words of the quotas, and of a place
MARKS = {'A': 1, 'B': 2}  # a place that holds a board of this edition; 0 is free
HUGE = 2 ** 64 - 1


class Refused(Exception):
    """A call that is refused, by its number; nothing was written."""
    def __init__(self, number):
        self.number = number


class Table:
    """A board is its refusal, 0 for none, and its sixteen words."""
    def __init__(self, words):
        self.words = words

    def set_up(self, first, second):
        self.fitting(first, second)
        self.words[:HEAD] = first, second
        for start in range(HEAD, HEAD + PLACE * (first + second), PLACE):
            self.words[start] = 0

    def put(self, desk, board):
        refusal, words = board
        if refusal:
            raise Refused(refusal)
        starts = self.starts(desk)
        free = [number for number, start in enumerate(starts) if self.words[start] == 0]
        if not free:
            raise Refused(QUOTA)
        start = starts[free[0]]
        self.words[start:start + PLACE] = words
        return free[0]

    def fetch(self, desk, number):
        """The sixteen words found there: 1 to 7 of them are still to be tested."""
        start = self.held(desk, number)
        return tuple(self.words[start:start + PLACE])

    def drop(self, desk, number):
        self.words[self.held(desk, number)] = 0

    def held(self, desk, number):
        """Where the place begins that the desk holds under this number."""
        starts = self.starts(desk)
        if number >= len(starts) or self.words[starts[number]] == 0:
            raise Refused(ABSENT)
        return starts[number]

    def starts(self, desk):
        """Where the desk's places begin, by their numbers: desk 1's are behind those of desk 0."""
        if desk not in (0, 1):
            raise Refused(DESK)
        quotas = self.words[:HEAD]
        self.fitting(*quotas)
        before = sum(quotas[:desk])
        return range(HEAD + PLACE * before, HEAD + PLACE * (before + quotas[desk]), PLACE)

    def fitting(self, *quotas):
        if len(self.words) < HEAD or sum(quotas) > (len(self.words) - HEAD) // PLACE:
            raise Refused(QUOTA)


# A board as `brute gate` takes it, in a line: eight sets, turn, rights, state, union, checkers, pins.

def words_of(line, edition):
    """What a put writes."""
    fields = line.decode().split(' ')
    men, (turn, rights, state), (union, checkers, pins) = sets(fields[:8]), fields[8:11], sets(fields[11:])
    white, black = [(king in rights) + 2 * (queen in rights) for king, queen in ('KQ', 'kq')]
    return [MARKS[edition]] + men + [union, 'wb'.index(turn), white, black, pins, checkers, '?-'.index(state) if state in '?-' else 2 + int(state)]


def line_of(words):
    """How any words behind a mark are read."""
    _, *men, union, turn, white, black, pins, checkers, state = words
    rights = ['', 'K', 'Q', 'KQ'][min(white, 3)] + ['', 'k', 'q', 'kq'][min(black, 3)]
    state = '?-'[state] if state < 2 else str(min(state - 2, 255))
    return ' '.join(['%x' % s for s in men] + ['b' if turn else 'w', rights or '-', state] + ['%x' % s for s in (union, checkers, pins)]).encode()


def edition_of(words):
    """How any mark is read that is not 0."""
    return 'B' if words[0] == MARKS['B'] else 'A'


def sets(fields):
    return [int(f, 16) for f in fields]


def men_of(text):
    """The first eleven fields, of a text that the reader takes."""
    men, turn, rights, state = text.decode().split(' ')
    at, square = {}, 56
    for c in men:
        if c == '/':
            square -= 16
        elif c.isdigit():
            square += int(c)
        else:
            at[square] = c
            square += 1
    belongs = [lambda c, kind=kind: c.upper() == kind for kind in 'PNBRQK'] + [str.isupper, str.islower]
    fields = ['%x' % sum(1 << s for s, c in at.items() if test(c)) for test in belongs]
    return ' '.join(fields + [turn, rights, state if state in '-?' else str('abcdefgh'.index(state[0]) + 8 * int(state[1]) - 8)]).encode()


# The questions of the verb `desks`.

class Question:
    def __init__(self, fields):
        size, calls, *self.boards = fields.split(b'\t') if b'\t' in fields else (fields, b'')
        self.table = Table([9] * min(1024, int(size)))
        self.calls = [(c[:1], *(min(HUGE, int(n)) for n in c[1:].split(b','))) for c in calls.split(b' ') if c]

    def said(self, boards):
        """The answers in their order, words for a board that is fetched, and at last the table."""
        for call in self.calls:
            try:
                yield self.call(boards, *call)
            except Refused as refused:
                yield b'refused %d' % refused.number
        yield b'[%s]' % b' '.join(b'%d' % word for word in self.table.words)

    def call(self, boards, letter, a, b):
        if letter == b's':
            self.table.set_up(a, b)
            return b'set'
        if letter == b'p':
            return b'%d' % self.table.put(a, boards[self.boards[b - 1]] if 1 <= b <= len(self.boards) else (TEXT, []))
        if letter == b'f':
            return self.table.fetch(a, b)
        if letter == b'd':
            self.table.drop(a, b)
            return b'dropped'
        if letter == b'w':
            return self.write(a, b)
        return b'unknown call'

    def write(self, index, word):
        if index >= len(self.table.words):
            return b'no word'
        self.table.words[index] = word
        return b'written'


def answers(brute, asked):
    """Of many fields; `brute(mode, edition, lines)` runs it."""
    questions = [Question(fields) for fields in asked]
    boards = read(brute, {board for q in questions for board in q.boards})
    said = [list(q.said(boards)) for q in questions]
    shown = tested(brute, {words for each in said for words in each if isinstance(words, tuple)})
    return [b'\t'.join(shown.get(answer, answer) for answer in each) for each in said]


def read(brute, fields, edition='A'):
    """Boards of an edition by their fields: `=` and a line are tested by 1 to 7, a text by 14 and 1 to 6, and then its last sets are worked out."""
    raw, texts = [[f for f in fields if f.startswith(b'=') == is_raw] for is_raw in (True, False)]
    boards = {f: (int(said.split()[0]), words_of(f[1:], edition)) for f, said in zip(raw, brute('gate', edition, [f[1:] for f in raw]))}
    boards.update((t, (int(said), [])) for t, said in zip(texts, brute('accept', edition, texts)))
    good = [t for t in texts if boards[t][0] == 0]
    men = [men_of(t) for t in good]
    boards.update((t, (0, words_of(m + b' ' + worked, edition))) for t, m, worked in zip(good, men, brute('worked', edition, men)))
    return boards


def tested(brute, found):
    """The answer to a fetch that found these words: the board's text, or by which of 1 to 7, in its edition, it is refused."""
    shown = {}
    for edition in MARKS:
        of_it = [words for words in found if edition_of(words) == edition]
        said = [s.split(b' ', 2) for s in brute('gate', edition, [line_of(words) for words in of_it])]
        shown.update((words, s[2] if s[0] == b'0' else b'refused ' + s[0]) for words, s in zip(of_it, said))
    return shown
