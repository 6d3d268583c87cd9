"""What `compare` asks of the two editions and of records: the generated texts with states of either edition, records of them, whole and damaged."""
from programs import BRUTE, ask, load

gen = load('gen')
HALVES = [b'0', b'1', b'49', b'50', b'99', b'100', b'9998', b'9999']
FULLS = [b'1', b'2', b'10', b'57', b'999', b'9998', b'9999']
TOO_LARGE = [b'10000', b'10001', b'19999', b'65535', b'65536', b'65537', b'99999', b'4294967296', b'4294967297', b'18446744073709551615',
             b'18446744073709551616', b'18446744073709551617', b'123456789012345678901234567890', b'9' * 100]
NO_COUNTERS = [b'', b'-', b'+', b'?', b'x', b'00', b'000', b'01', b'007', b'010000', b'+0', b'+1', b'-0', b'-1', b'1.0', b'1e3', b'0x1', b'1x', b'x1',
               b'1/', b'1:', b'\xd9\xa1', b'1\0', b'\0', b'1\r', b'0' * 30, b'0' + b'9' * 30]
NO_SQUARES = [b'?', b'', b'--', b'e', b'3', b'E3', b'e33', b'i3', b'e9']
BYTES = b'PNBRQKpnbrqk0123456789/ -wb?aehAEHxX\0\r\xff'


def stated(rng, texts):
    """Each text short enough for a line of `ask` in both editions: as it is, or with a state that its edition may give it, or with any."""
    texts = [t for t in texts if b'\t' not in t and len(t) < 200]
    formed = ask([BRUTE, 'accept'], texts)
    return [(e, t if said == b'14' else restated(rng, e, t)) for t, said in zip(texts, formed) for e in 'AB']


def restated(rng, edition, text):
    men, turn, rights, state = text.decode().split(' ')
    board = gen.arr(men)
    may, stepped = [gen.doubles(board, turn == 'w', e) for e in (edition, 'B')]
    middle = [s for s in range(24, 40) if board[s] in 'Pp']
    way = rng.random()
    if way < .05:
        state = gen.name(rng.choice(middle or [rng.randrange(64)]))
    elif way < .07:
        state = gen.name(rng.randrange(64))
    elif way < .12 and stepped:
        state = gen.name(rng.choice(stepped))
    elif way < .4 and may:
        state = gen.name(rng.choice(may))
    elif way < .75:
        state = rng.choice('-?')
    return ' '.join([men, turn, rights, state]).encode()


def lines_of(verb, rng, boards):
    """The questions of a verb, of boards that are an edition and a text."""
    fields = {'pgnread': asked_to_read, 'pgnwrite': asked_to_write}.get(verb, lambda rng, text: text)
    return [b'%s\t%s\t%s' % (verb.encode(), edition.encode(), fields(rng, text)) for edition, text in boards]


def counter(rng, usual):
    return rng.choice(usual) if rng.random() < .6 else b'%d' % rng.randrange(1, 10000)


def asked_to_write(rng, text):
    """A counter is any number up to 65,535."""
    half, full = counter(rng, HALVES), counter(rng, FULLS)
    if rng.random() < .1:
        half, full = (b'%d' % rng.choice([0, 9999, 10000, 65535, rng.randrange(65536)]) for _ in range(2))
    return b'\t'.join([text, half, full])


def asked_to_read(rng, text):
    """The record of a text, none in place of unknown most of the time; more than a third of them damaged."""
    first, _, state = text.rpartition(b' ')
    if state == b'?' and rng.random() < .8:
        state = b'-'
    elif len(state) == 2:
        state = state[:1] + {b'4': b'3', b'5': b'6'}.get(state[1:], state[1:])
    record = [first, state, counter(rng, HALVES), counter(rng, FULLS)]
    for _ in range(rng.choice([0, 0, 0, 0, 0, 1, 1, 1, 2])):
        rng.choice(DAMAGES)(rng, record)
    return b' '.join(record)


# Each changes a record: men, turn and rights in one, the square passed over, and the counters, or what is left of them.

def bad_counter(rng, record):
    record[-1 - (rng.random() < .5)] = rng.choice(NO_COUNTERS)


def large_counter(rng, record):
    record[-1 - (rng.random() < .5)] = rng.choice(TOO_LARGE)


def lowest_counter(rng, record):
    record[-1] = b'0'


def lost_field(rng, record):
    if len(record) > 2:
        record.pop(rng.randrange(1, len(record)))


def more_fields(rng, record):
    record.insert(rng.randrange(1, len(record) + 1), rng.choice([b'', b'', b'-', b'0', b'1', b'bm', b'e3']))


def other_square(rng, record):
    """The other side's rank, the pawn's own square, any square of ranks 3 and 6, any square, or no square."""
    here = record[1]
    swapped = here[:1] + here[1:].translate(bytes.maketrans(b'36', b'63'))
    pawn = here[:1] + here[1:].translate(bytes.maketrans(b'36', b'45'))
    passed, any_square = gen.name(rng.choice([16, 40]) + rng.randrange(8)), gen.name(rng.randrange(64))
    record[1] = rng.choice([swapped, swapped, pawn, passed.encode(), any_square.encode(), rng.choice(NO_SQUARES)])


def other_byte(rng, record):
    """A byte put in, taken out or changed, or a space before or behind."""
    i = rng.randrange(len(record))
    part, at, byte = record[i], rng.randrange(len(record[i]) + 1), bytes([rng.choice(BYTES)])
    record[i] = rng.choice([part[:at] + byte + part[at:], part[:at] + part[at + 1:], part[:at] + byte + part[at + 1:], part + b' ', b' ' + part])


DAMAGES = [bad_counter, bad_counter, large_counter, large_counter, lowest_counter, lost_field, more_fields, other_square, other_square, other_byte]
