"""What `compare` asks: of generated boards, lines for each verb of `ask`, and the presses of `step`. The oracle has to be built before this is
imported."""
import itertools
import table
from programs import BRUTE, PORTED, ask, load

gen = load('gen')


def texts(rng, boards):
    return [b.text for b in boards]


def fields_of(text):
    """The men of a text in form as eight sets, the turn, the rights, and the state with its square's number."""
    men, turn, rights, state = text.decode().split(' ')
    at = [(s, c) for s, c in enumerate(gen.arr(men)) if c != '.']
    sets = [sum(1 << s for s, c in at if c.upper() == k) for k in 'PNBRQK']
    sets += [sum(1 << s for s, c in at if c.isupper() == white) for white in (True, False)]
    return sets, turn, rights, state if state in '-?' else str('abcdefgh'.index(state[0]) + 8 * int(state[1]) - 8)


def raw_line(sets, turn, rights, state):
    return ('%s %s %s %s' % (' '.join('%x' % s for s in sets), turn, rights, state)).encode()


def raw(rng, boards):
    """The men of each text in form, as they are and with a few bits, the rights or the state changed."""
    return [raw_line(*q) for b in boards if b.refusal != 14 for f in [fields_of(b.text)] for q in (f, bent_men(rng, *f))]


def bent_men(rng, sets, turn, rights, state):
    sets = list(sets)
    way = rng.randrange(4)
    if way < 2:
        square = 1 << rng.randrange(64)
        for i in rng.sample(range(8), 1 + way):
            sets[i] ^= square
    elif way == 2:
        rights = ''.join(c for c in 'KQkq' if rng.random() < .5) or '-'
    else:
        state = rng.choice(['-', '?', str(rng.randrange(24, 40)), str(rng.randrange(256))])
    return sets, turn, rights, state


def unpacked(n):
    return n % 64, n // 64 % 64, n // 4096 % 8, n >> 15


def packed(r):
    return r[0] + 64 * r[1] + 4096 * r[2] + 32768 * r[3]


def written(r):
    return b'%d,%d,%d,%d' % r


def bent(rng, r):
    """A retraction with one field changed."""
    i = rng.randrange(4)
    return r[:i] + ((1 - r[3]) if i == 3 else rng.randrange(8) if i == 2 else rng.randrange(64),) + r[i + 1:]


def wild(rng):
    return rng.randrange(rng.choice([64, 256])), rng.randrange(rng.choice([64, 256])), rng.randrange(rng.choice([6, 256])), rng.randrange(2)


def chosen(rng, b):
    """Retractions to un-make: some of each list, each also bent; some of the retractor's men to anywhere; wild ones."""
    if b.refusal not in (0, 8):
        return [wild(rng)]
    good = [unpacked(n) for l in (b.listed, b.strict) for n in rng.sample(l, min(3, len(l)))]
    men, turn = b.text.decode().split(' ')[:2]
    own = [s for s, c in enumerate(gen.arr(men)) if c != '.' and c.isupper() == (turn == 'b')]
    anywhere = [(rng.choice(own), rng.randrange(64), rng.randrange(7), int(rng.random() < .2)) for _ in range(4)]
    return good + [bent(rng, r) for r in good] + anywhere + [wild(rng), wild(rng)]


def unmake(b, r):
    return b.text + b'\t' + written(r)


def replay(rng, boards, unmade):
    """Half of the un-made boards with the retraction that led there, once as it was and once with something changed; each text, wildly."""
    lines = [b.text + b'\t' + written(wild(rng)) + b'\t%d' % rng.randrange(7) for b in boards]
    for b, r, answer in unmade:
        if not answer.startswith(b'refused') and rng.random() < .5:
            man = gen.arr(b.text.decode().split(' ')[0])[r[0]].upper()
            fields = answer.split(b' ')[:4]
            kind = '.PNBRQ'.index(man) if r[3] else 0
            lines.append(b'%s\t%s\t%d' % (b' '.join(fields), written(r), kind))
            way = rng.randrange(4)
            if way == 0:
                kind = rng.randrange(8)
            elif way == 1:
                r = bent(rng, r)
            elif way == 2:
                fields[2] = b'-'
            else:
                fields[3] = rng.choice([b'-', b'?', gen.name(rng.randrange(24, 40)).encode()])
            lines.append(b'%s\t%s\t%d' % (b' '.join(fields), written(r), kind))
    return lines


def square(rng):
    return rng.randrange(64) if rng.random() < .8 else rng.randrange(64, 256)


def piece(rng, boards):
    return [b.text + b'\t%d' % square(rng) for b in boards for _ in range(3)]


def attacked(rng, boards):
    return [b.text + b'\t%d\t%s' % (square(rng), rng.choice([b'w', b'b'])) for b in boards for _ in range(3)]


def setep(rng, boards):
    """None, unknown, pawns on the middle ranks, and any number."""
    lines = []
    for b in boards:
        men = gen.arr(b.text.decode().split(' ')[0]) if b.refusal != 14 else []
        states = [b'-', b'?', b'%d' % rng.randrange(256)] + [b'%d' % s for s, c in enumerate(men) if c in 'Pp' and 24 <= s < 40]
        lines += [b.text + b'\t' + state for state in rng.sample(states, 3)]
    return lines


def cursor(rng, boards):
    """Some entries of each list with the cursor anywhere in them, as they are and bent, pressed three times each."""
    said = ask([PORTED, 'entries'], [b.text for b in boards if b.refusal == 0])
    lines, asked = [line for s in said for line in cursors(rng, s.decode().split(' '))], []
    for _ in range(3):
        asked += lines
        lines = [pressed.split(b' ', 1)[1] for pressed in ask([BRUTE, 'cursor'], lines)]
    return asked


def cursors(rng, said):
    """At most ten entries, so that a line has room for them, at the first places or about the last."""
    masks, entries = said[:6], [e.split(':') for e in rng.sample(said[6:], min(len(said) - 6, rng.randrange(11)))]
    entries = [['abcdefgh'.index(s[0]) + 8 * int(s[1]) - 8, t, k, m] for s, t, k, m in entries]
    first = rng.choice([0, 0, 0, 47 - len(entries)])
    length = first + len(entries)
    whole = [length, rng.randrange(first, length + 1), rng.randrange(7), masks, [[first + i] + e for i, e in enumerate(entries)]]
    return [cursor_line(*whole), cursor_line(*bent_cursor(rng, *whole))]


def cursor_line(length, index, uncaptured, masks, entries):
    return ' '.join(['%d %d %d' % (length, index, uncaptured)] + masks + ['%d:%d:%s:%s:%s' % tuple(e) for e in entries]).encode()


def bent_cursor(rng, length, index, uncaptured, masks, entries):
    """Another length, index or number of an uncapture, another mask, or an entry anywhere with any source and targets."""
    way = rng.randrange(5)
    if way == 0:
        length = rng.choice([0, rng.randrange(48), 47, 48, 255, 2 ** 64 - 1])
    elif way == 1:
        index = rng.choice([0, rng.randrange(48), length, 47, 48, 255, 2 ** 64 - 1])
    elif way == 2:
        uncaptured = rng.choice([0, 5, 6, 7, 255])
    elif way == 3:
        masks = [m if rng.random() < .5 else '%x' % rng.getrandbits(64) for m in masks]
    else:
        source = rng.choice([63, 64, 255, rng.randrange(64)])
        targets = rng.choice([0, rng.getrandbits(64), 1 << 63, 2 ** 64 - 1])
        entries = entries + [[rng.randrange(48), source, '%x' % targets, rng.choice('ONFE'), rng.choice('=.')]]
    return length, index, uncaptured, masks, entries


def gate(rng, boards):
    """Each text in form as a board of all its fields, twice: its sets worked afresh, or those of other men or another turn, or bent."""
    boards = [fields_of(b.text) for b in boards if b.refusal != 14 for _ in range(2)]
    whole, other = [raw_line(*f) for f in boards], [raw_line(*another(rng, *f)) for f in boards]
    lines = []
    for men, here, changed, there in zip(whole, ask([BRUTE, 'worked'], whole), other, ask([BRUTE, 'worked'], other)):
        way = rng.randrange(5)
        if way == 0:
            here = bent_worked(rng, here)
        lines.append((men if way < 3 else changed) + b' ' + (there if way in (2, 4) else here))
    return lines


def another(rng, sets, turn, rights, state):
    if rng.random() < .3:
        return sets, 'w' if turn == 'b' else 'b', rights, state
    return bent_men(rng, sets, turn, rights, state)


def bent_worked(rng, worked):
    """A bit more or less in one of the three sets, or one of them empty."""
    sets = [int(x, 16) for x in worked.split()]
    i = rng.randrange(3)
    sets[i] = rng.choice([0, sets[i] ^ 1 << rng.randrange(64)])
    return b'%x %x %x' % tuple(sets)


GOOD = [b'4k3/8/8/8/3pP3/8/8/4K3 b - e4', b'4k3/8/8/3pP3/8/8/8/4K3 w - d5', b'r3k2r/8/8/8/8/8/8/R3K2R w KQkq -', b'r3k2r/8/8/8/8/8/8/R3K2R b Kq ?',
        b'8/4k3/3P4/8/8/8/8/4R2K b - -', b'4k3/8/8/8/4n3/8/8/4RK2 b - ?', b'4k3/4r3/8/8/4B3/8/8/4K3 w - -', b'8/8/8/8/8/3n4/8/4K2k w - ?',
        b'4k3/8/8/8/1P2P3/8/8/4K3 b - ?', b'4k3/8/8/p5p1/8/8/8/4K3 w - -']
LOW = [b'8/8/8/8/8/8/8/K1k5 w - ?', b'8/8/8/8/8/8/8/K1k4R b - -', b'8/8/8/8/8/8/1P6/K2k3R b - -', b'8/8/8/8/8/8/r6R/K2k4 w - ?', b'8/8/8/8/8/8/8/R3K1k1 w Q -']
LARGE = [2 ** 8, 2 ** 32, 2 ** 60, 2 ** 63, table.HUGE]


def desks(rng, boards):
    """A line a board: what two desks and a stranger do with boards of any kind, among them always some that are accepted."""
    texts = [b.text for b in boards if len(b.text) < 90 and b.text[:1] != b'=']
    raw = [b'=' + fields for fields in gate(rng, boards)]
    known = table.read(lambda mode, edition, lines: ask([BRUTE, mode, edition], lines), set(texts + raw + GOOD + LOW))
    return [Study(rng, known, few(rng, [texts, texts, raw, GOOD, texts, raw, GOOD])).line() for _ in boards]


def few(rng, heaps):
    """A board of each heap, the heaps in any order, as long as half of a line has room for them."""
    chosen = [rng.choice(heap) for heap in rng.sample(heaps, len(heaps)) if heap]
    return [b for b, length in zip(chosen, itertools.accumulate(len(b) + 1 for b in chosen)) if length <= 210] or [rng.choice(GOOD)]


class Study:
    """The calls of one line, made here too, so that it is known what the desks hold."""
    def __init__(self, rng, known, boards):
        self.rng, self.known, self.boards = rng, known, boards
        self.size, self.calls = table_size(rng), []
        self.question = table.Question(self.fields())
        self.words, self.room = self.question.table.words, 513 - len(b'desks\t' + self.fields())  # no space behind the last call

    def fields(self):
        return b'\t'.join([b'%d' % self.size, b' '.join(self.calls)] + self.boards)

    def line(self):
        opening = self.rng.choices([[], [self.set_up], [self.quota, self.quota], [self.any, self.any, self.any, self.set_up]], [5, 75, 10, 10])[0]
        for step in opening:
            step()
        while len(self.calls) < 45 and self.room > 0:
            self.any()
        return self.fields()

    def any(self):
        """A step; the table is set up again soon where nobody has a place, most often after a quota that is too large."""
        steps = [self.put, self.fill, self.fetch, self.drop, self.stranger, self.quota, self.set_up, self.unknown]
        lost = len(self.words) > 17 and not self.starts(0) and not self.starts(1)
        self.rng.choices(steps, [24, 3, 24, 15, 6, 1, 40 if lost else 1, 1])[0]()

    def make(self, letter, a, b):
        call = b'%s%d,%d' % (letter, a, b)
        self.room -= len(call) + 1
        if self.room >= 0:
            self.calls.append(call)
            try:
                self.question.call(self.known, letter, min(a, table.HUGE), min(b, table.HUGE))
            except table.Refused:
                pass

    def desk(self, wanted=lambda word: True):
        """Rather one with a place whose mark is wanted."""
        having = [desk for desk in (0, 1) if any(wanted(self.words[start]) for start in self.starts(desk))]
        if having and self.rng.random() < .85:
            return self.rng.choice(having)
        return self.rng.choices([0, 1, 2, 3, 255, 256, 300, table.HUGE], [20, 20, 1, 1, 1, 1, 1, 1])[0]

    def starts(self, desk):
        """Where the desk's places begin, none where its calls are refused."""
        try:
            return self.question.table.starts(desk)
        except table.Refused:
            return []

    def number(self, desk):
        """Mostly one that the desk holds, else one about its quota, or a large one."""
        starts = self.starts(desk)
        held = [n for n, start in enumerate(starts) if self.words[start]]
        if held and self.rng.random() < .8:
            return self.rng.choice(held)
        return self.rng.choice([self.rng.randrange(len(starts) + 2), len(starts), self.rng.choice(LARGE)])

    def put(self):
        board = self.rng.choice([0, len(self.boards) + 1, table.HUGE]) if self.rng.random() < .1 else self.rng.randrange(len(self.boards)) + 1
        self.make(b'p', self.desk(lambda mark: mark == 0), board)

    def fill(self):
        """More than a desk may hold, where that is not many."""
        desk, good = self.desk(), [i for i, b in enumerate(self.boards, 1) if self.known[b][0] == 0]
        for _ in range(min(8, 1 + sum(self.words[start] == 0 for start in self.starts(desk)))):
            self.make(b'p', desk, self.rng.choice(good or [1]))

    def fetch(self):
        desk = self.desk(bool)
        self.make(b'f', desk, self.number(desk))

    def drop(self):
        desk = self.desk(bool)
        self.make(b'd', desk, self.number(desk))

    def unknown(self):
        self.make(self.rng.choice([b'x', b'S', b'P', b'q']), self.rng.randrange(3), self.rng.randrange(3))

    def set_up(self):
        """Quotas that fit, all places or a few; or those that do not, some of which would if their sum wrapped."""
        places = max(0, len(self.words) - 2) // 16
        if self.rng.random() < .15:
            large = [(h, n) for h in (2 ** 60, table.HUGE, 2 ** 64) for n in (0, 1, places + 1, h)] + [(2 ** 63, 2 ** 63)]
            quotas = self.rng.choice([(places, 1), (places + 1, 0), self.rng.choice(large)])
            return self.make(b's', *self.rng.sample(quotas, 2))
        both = self.rng.choice([places, places, min(places, self.rng.randrange(9)), self.rng.randrange(places + 1)])
        first = self.rng.randrange(both + 1)
        self.make(b's', first, both - first)

    def quota(self):
        self.make(b'w', self.rng.randrange(2), self.rng.choice([0, 1, 2, 3, max(0, len(self.words) - 2) // 16, self.rng.choice(LARGE)]))

    def stranger(self):
        """Changes by hand a place, most often one in use, and fetches from it; or writes any word."""
        places = [(desk, n, start) for desk in (0, 1) for n, start in enumerate(self.starts(desk))]
        used = [p for p in places if self.words[p[2]]]
        if not places or self.rng.random() < .05:
            return self.make(b'w', self.rng.choice([0, 1, 2, self.rng.randrange(self.size + 2), table.HUGE]), self.rng.choice([0, 1] + LARGE))
        desk, number, start = self.rng.choice(used if used and self.rng.random() < .9 else places)
        here = self.words[start:start + 16]
        there = self.known[self.rng.choice(LOW)][1] if self.rng.random() < .1 else bent_place(self.rng, here)
        for i in range(16):
            if here[i] != there[i]:
                self.make(b'w', start + i, there[i])
        self.make(b'f', desk, number)


def table_size(rng):
    odd = rng.choice([0, 1, 2, 3, 17, 18, 33, 34, 1023, 1024, 1025, table.HUGE, rng.randrange(1025)])
    return odd if rng.random() < .15 else 2 + 16 * rng.randrange(2, 9) + rng.choice([0, 0, 1, 15])


def bent_place(rng, words):
    """The words of a place with one of them changed, or a king that comes or goes, or a pawn on the first or the last rank, or a pawn named in either
    edition that may have stepped two squares."""
    words, way = list(words), rng.randrange(11)
    if way == 0:
        words[0] = rng.choice([0, 2] + LARGE)
    elif way == 1:
        words[10] = rng.choice([0, 1, 2] + LARGE)
    elif way == 2:
        words[10] = 0 if words[10] else 1
    elif way == 3:
        words[rng.choice([11, 12])] = rng.choice([0, 1, 2, 3, 4] + LARGE)
    elif way < 6:
        words[15] = rng.choice([0, 1, rng.randrange(26, 42), rng.randrange(2, 66), 66, 255, 256, 257, 258, words[15] + 256] + LARGE)
    elif way == 6:
        words[rng.randrange(1, 9)] ^= 1 << rng.randrange(64)
    elif way == 7:
        words[rng.choice([9, 13, 14])] ^= 1 << rng.randrange(64)
    elif way == 8:
        fourth, own = (range(24, 32), words[7]) if words[10] else (range(32, 40), words[8])
        words[0], words[15] = rng.choice([1, 2, 2]), 2 + rng.choice([s for s in fourth if words[1] & own & 1 << s] or fourth)
    else:
        kind = rng.choice([1, 6])
        squares = [s for s in range(64) if words[6] >> s & 1] if kind == 6 else [s for s in range(64) if s // 8 in (0, 7) and not words[9] >> s & 1]
        square = rng.choice(squares or [rng.randrange(64)])
        for i in (kind, 8 if words[8] >> square & 1 else 7, 9):
            words[i] ^= 1 << square
    return [min(w, table.HUGE) for w in words]


def calls(line, answer):
    """The calls of a line to `desks`, each by its letter and what it was answered, with no numbers and no boards in it."""
    said = ['a number' if a.isdigit() else 'a board' if b'/' in a else a.decode() for a in answer.split(b'\t')]
    return [c[:1].decode() + ' ' + a for c, a in zip(line.split(b'\t')[2].split(b' '), said)]


def into(length):
    """Each board into a slice that has just the room, too little or more; a line of `ask` has 512 bytes."""
    def lines(rng, boards):
        short = [(b.text, length(b)) for b in boards if len(b.text) < 200]
        return [text + b'\t%d' % rng.choice([0, max(0, n - 1), n, n, n + 3, rng.randrange(100)]) for text, n in short]
    return lines


PRESSES = [b'', b'', b' ', b'n', b'Q', b' q', b'\x1b[A', b'\0', b'\r', b'press ' * 100]


def sitting(rng, s):
    """The lines of a text and its presses, up to the end of its list; of a long one 20, and `q`."""
    long = len(s.listed) > 60
    s.presses = 0 if s.refusal else 20 if long else len(s.listed) + 1
    return [s.text] + [rng.choice(PRESSES) for _ in range(s.presses)] + ([b'q'] if long else [])


NO_VERBS = [b'', b'moves\t', b'\t', b'lists\t', b'raw ', b'piece', b'Count\t', b' strict\t', b'limite\t', b'cursor', b'gate,', b'unmak\xc3\t',
            b'press', b'presse\t', b'desks', b'desk\t', b'checkers', b'attacker\t', b'castlings\t',
            b'history', b'histor\t', b'histories\t', b'solution', b'solutio\t', b'solutions\t']
FIELDS = {'raw': raw, 'piece': piece, 'attacked': attacked, 'setep': setep, 'cursor': cursor, 'press': cursor, 'gate': gate, 'desks': desks,
          'print': into(lambda b: len(b.text)), 'listinto': into(lambda b: len(b.listed)), 'strictinto': into(lambda b: len(b.strict))}


def lines_of(verb, rng, boards, unmade):
    """The questions of a verb; `unmade` has boards, retractions and what un-make answers to them."""
    if verb == 'unknown':  # words that are no verb, and verbs without their tab, in capitals or behind a space
        return [w + b.text if w[-1:] in (b'\t', b' ') else w for w, b in zip(itertools.cycle(NO_VERBS), boards)]
    if verb == 'unmake':
        fields = [unmake(b, r) for b, r, _ in unmade]
    elif verb == 'replay':
        fields = replay(rng, boards, unmade)
    else:
        fields = FIELDS.get(verb, texts)(rng, boards)
    return [verb.encode() + b'\t' + f for f in fields]
