"""What `compare` asks about solutions: of each board several, from the whole strict list to lines out of form, as questions to `ask` and as files of the
program `solutions`. The oracle has to be built before this is imported."""
from programs import load

judge = load('judge')
FORM = [b'abcdefgh', b'12345678', b'abcdefgh', b'12345678', b' ', b'.PNBRQ', b' ', b'.=']  # what may stand in each place of a line
OTHERS = b'abhi1890 .PNBRQKpnq=+-*xABH\0\r\x7f\xff'
BEHIND = [b' ', b' +', b' -', b' *', b'.', b'\r', b'\0', b' .', b'=', b'  ', b' d6e5 P .']
NO_ROWS = [b'', b'', b' ', b'.', b'-', b'none', b'complete', b'd6e5', b'd6e5 P', b'd6e5 P ', b'd6e5P.', b'd6-e5 P .', b'd6xe5 P .', b'exd6 e.p.',
           b'O-O . .', b'2347']
EACH = 8  # solutions of a board
MANY = 60  # one board in so many has solutions of about 4,096 lines


class Board:
    """A text with the rows of its lists."""
    def __init__(self, rng, text, refusal, listed, strict):
        self.rng, self.text = rng, text
        self.listed, self.strict = [judge.row(n) for n in listed], [judge.row(n) for n in strict]

    def shuffled(self, rows):
        return self.rng.sample(rows, len(rows))

    def any_row(self):
        return b''.join(bytes([self.rng.choice(choice)]) for choice in FORM)

    def bent(self, row):
        """A row with one place changed, in form still."""
        i = self.rng.choice([0, 1, 2, 3, 5, 7])
        return row[:i] + bytes([self.rng.choice(FORM[i])]) + row[i + 1:]

    def no_member(self):
        """A row in form that is not strict: rather one of the ported list, or one that is nearly strict."""
        near = [self.bent(row) for row in self.strict[:1] + self.rng.sample(self.strict, min(5, len(self.strict)))]
        heaps = [[row for row in heap if row not in self.strict] for heap in (self.listed, near, [self.any_row() for _ in range(9)])]
        return self.rng.choice(self.rng.choice([heap for heap in heaps if heap]))

    def any_line(self):
        return self.rng.choice(self.strict or [self.any_row()])

    def out_of_form(self):
        """A place changed to a byte that may not stand there, a byte put in or taken out, something behind, or no row at all."""
        rng, row = self.rng, self.rng.choice(self.strict + [self.any_row()])
        i = rng.randrange(8)
        other = bytes([rng.choice([b for b in OTHERS if b not in FORM[i]])])
        ways = [row[:i] + other + row[i + 1:]] * 6 + [row[:i] + row[i + 1:], row[:i] + row[i:i + 1] + row[i:], row.upper(), row.lower().replace(b'.', b'p', 1)]
        return rng.choice(ways + [row + rng.choice(BEHIND)] * 3 + [b' ' + row, rng.choice(NO_ROWS), rng.choice(NO_ROWS)])

    def put(self, lines, more, after=0):
        """The lines with one more, anywhere behind so many."""
        i = self.rng.randrange(after, len(lines) + 1)
        return lines[:i] + [more] + lines[i:], i + 1


# The solutions of a board, each a list of lines.

def complete(b):
    return b.shuffled(b.strict)


def in_order(b):
    return list(b.strict)


def of_ported_list(b):
    return list(b.listed)


def in_ported_order(b):
    """The strict rows as `lastmoves` shows them, without one."""
    rows = [row for row in b.listed if row in b.strict] + [row for row in b.strict if row not in b.listed]
    return without(b, rows)


def without(b, rows):
    i = b.rng.randrange(len(rows)) if rows else 0
    return rows[:i] + rows[i + 1:]


def without_first(b):
    return b.shuffled(b.strict[1:])


def without_last(b):
    return b.shuffled(b.strict[:-1])


def without_one(b):
    return b.shuffled(without(b, b.strict))


def some(b):
    return b.rng.sample(b.strict, b.rng.randrange(len(b.strict) + 1))


def nothing(b):
    return []


def one_wrong(b):
    return b.put(complete(b), b.no_member())[0]


def wrong_for_right(b):
    return b.put(without_one(b), b.no_member())[0]


def two_wrong(b):
    lines, after = b.put(some(b), b.no_member())
    return b.put(lines, b.no_member(), after)[0]


def extra_at_end(b):
    return complete(b) + [b.rng.choice([b.no_member(), b.any_line()])]


def repeat(b):
    return b.put(complete(b), b.any_line())[0]


def repeat_for_missing(b):
    """As many lines as there are strict retractions."""
    lines = without_one(b)
    return b.put(lines, b.rng.choice(lines or [b.any_row()]))[0]


def first_at_end(b):
    lines = complete(b)
    return lines + lines[:1]


def repeat_before_wrong(b):
    lines, after = b.put(complete(b), b.any_line())
    return b.put(lines, b.no_member(), after)[0]


def wrong_before_repeat(b):
    lines, after = b.put(complete(b), b.no_member())
    return b.put(lines, b.any_line(), after)[0]


def wrong_before_unread(b):
    lines, after = b.put(some(b), b.no_member())
    return b.put(lines, b.out_of_form(), after)[0]


def unread(b):
    return b.put(complete(b), b.out_of_form())[0]


def two_unread(b):
    lines, after = b.put(some(b), b.out_of_form())
    return b.put(lines, b.out_of_form(), after)[0]


def many(b):
    """About 4,096 lines, one of those about there often out of form."""
    lines = (b.shuffled(b.strict) + [b.any_line() for _ in range(4098)])[:b.rng.randrange(4095, 4099)]
    if b.rng.random() < .6:
        lines[b.rng.randrange(4093, len(lines))] = b.out_of_form()
    return lines


WAYS = [complete, in_order, of_ported_list, in_ported_order, without_first, without_last, without_one, some, nothing, one_wrong, wrong_for_right, two_wrong,
        extra_at_end, repeat, repeat_for_missing, first_at_end, repeat_before_wrong, wrong_before_repeat, wrong_before_unread, unread, two_unread]


def solutions(rng, texts, lists):
    """Some solutions of each text, its lists being a refusal, the ported and the strict one."""
    for text, each in zip(texts, lists):
        board = Board(rng, text, *each)
        for way in rng.sample(WAYS, EACH) + [many] * (rng.random() * MANY < 1):
            yield text, way(board)


def questions(rng, texts, lists):
    """A field has no tab."""
    return [b'\t'.join([b'solution', text] + lines) for text, lines in solutions(rng, texts, lists) if b'\t' not in text]


def files(rng, texts, lists, n):
    """Files of n texts; a last newline may be left out or doubled, and one in ten is damaged."""
    few = rng.sample(list(zip(texts, lists)), min(n, len(texts)))
    asked = [b'\n'.join([text] + lines) + rng.choice([b'', b'\n', b'\n', b'\n\n']) for text, lines in solutions(rng, *zip(*few))]
    return [file if rng.random() < .9 else damaged(rng, file) for file in asked]


def damaged(rng, file):
    """A byte put in, an end cut off, nothing left, or lines that end with CR LF, the first or not."""
    i, (position, newline, lines) = rng.randrange(len(file) + 1), file.partition(b'\n')
    ended = [file.replace(b'\n', b'\r\n'), position + newline + lines.replace(b'\n', b'\r\n')]
    return rng.choice(ended + [file[:i] + rng.choice([b'\t', b'\r', b'\0', b'\n']) + file[i:], file[:i], file[i:], b''])


def kind(answer):
    """What is counted of an answer: its word, and a refusal's number."""
    return ' '.join(answer.decode().split()[:2 if answer.startswith(b'refused') else 1])
