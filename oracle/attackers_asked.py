"""What `compare` asks about attackers, checkers and castlings, and what attackers.py and the Rust say to it. The oracle has to be built before this
is imported."""
import attackers
from editions import POINTS, name
from programs import BRUTE, PORTED, ask, load

gen = load('gen')
WHOLE = 50  # of one board in so many every square is asked about
AFTER = {'k': (6, 5, [4, 7]), 'q': (2, 3, [4, 1, 0])}  # the files of king and rook after castling, and those that are empty
OF_UNMAKE = [b'refused 9', b'refused 10', b'refused 11', b'refused 12']


def castled(rng, texts):
    """A third of the texts in form with the side that has just moved as after a castling, its king unattacked but by a king; the others as they are."""
    formed = ask([BRUTE, 'accept'], texts)
    return [after_castling(rng, t) if said != b'14' and rng.random() < .33 else t for t, said in zip(texts, formed)]


def after_castling(rng, text):
    men, turn, rights, state = text.decode().split(' ')
    white, home, board = turn == 'b', 0 if turn == 'b' else 56, gen.arr(men)
    king, rook, empty = AFTER[rng.choice('kq')]
    cleared = [home + file for file in empty if rng.random() < .97]
    board = ['.' if c == gen.side('k', white) or s in cleared else c for s, c in enumerate(board)]
    board[home + king], board[home + rook] = gen.side('k', white), gen.side('r', white)
    spare(board, home + king, white)
    rights = ''.join(c for c in rights if c.isupper() != white and c != '-') or '-'
    return ' '.join([gen.men(board), turn, rights, state]).encode()


def spare(board, king, white):
    """Takes away who attacks the king, and who does then."""
    while True:
        by = attackers.attackers({name(s): c for s, c in enumerate(board)}, name(king), not white)
        by = [s for s, c in enumerate(board) if name(s) in by and c not in 'Kk']
        if not by:
            return
        for s in by:
            board[s] = '.'


def lines_of(verb, rng, boards):
    """The questions of a verb, of boards that are an edition and a text."""
    fields = {'attackers': squares, 'checkers': lambda rng, boards: [(e, t) for e, t in boards], 'castling': sides}[verb]
    return [b'\t'.join([verb.encode(), f[0].encode()] + list(f[1:])) for f in fields(rng, boards)]


def squares(rng, boards):
    """A square and a colour of each board; of a few accepted ones every square and both colours."""
    one = [(e, t, b'%d' % (rng.randrange(64) if rng.random() < .95 else rng.randrange(64, 256)), rng.choice([b'w', b'b'])) for e, t in boards]
    few = [each for each in boards if rng.random() * WHOLE < 1]
    good = [each for edition in 'AB' for each in accepted(edition, [t for e, t in few if e == edition])]
    return one + [(e, t, b'%d' % s, colour) for e, t in good for s in range(64) for colour in (b'w', b'b')]


def accepted(edition, texts):
    return [(edition, t) for t, said in zip(texts, ask([BRUTE, 'accept', edition], texts)) if said == b'0']


def sides(rng, boards):
    """Both sides where the king stands as after castling; of one other board in ten one of them."""
    return [(e, t, side) for e, t in boards for side in ((b'k', b'q') if on_g_or_c(t) else [rng.choice([b'k', b'q'])] * (rng.random() < .1))]


def on_g_or_c(text):
    ranks, white = text.split(b' ')[0].split(b'/'), attackers.white_moved(text)
    if len(ranks) != 8:
        return False
    row = ranks[7 if white else 0].decode('latin-1').translate(POINTS)
    return gen.side('k', white) in (row[2:3], row[6:7])


def by_both(verb, answer):
    """Whether attackers.py can say so: it reads accepted texts, and of a castling it knows what un-make refuses."""
    return not answer.startswith(b'refused') or verb == 'castling' and answer in OF_UNMAKE


def found(verb, fields):
    """What attackers.py says to a text and its fields."""
    if verb == 'checkers':
        return attackers.checkers(fields[0])
    if verb == 'castling':
        return attackers.castling(fields[0], fields[1].decode())
    return attackers.of_square(fields[0], int(fields[1]), fields[2] == b'w')


def rough(verb, answer):
    """As much of an answer as the Rust has: the checkers, or whether anybody attacks."""
    return answer if verb == 'checkers' else b' '.join(b'%d' % (part != b'-') for part in answer.split(b'\t'))


def rust(verb, asked):
    """What the Rust says to texts and their fields."""
    if verb == 'attackers':
        return ask([PORTED, 'attacked'], [b'\t'.join(f) for f in asked])
    if verb == 'checkers':
        return [names(int(said.split()[-2], 16)) for said in ask([PORTED, 'info'], [text for text, in asked])]
    ways = [way_of(*f) for f in asked]
    before = ask([PORTED, 'unmake'], [b'%s\t%d' % (f[0], went + 64 * was) for f, (was, _, went) in zip(asked, ways)])
    sets = [said.split() for said in ask([PORTED, 'attacked'], [b' '.join(b.split(b' ')[:4]) for b in before])]
    enemies = [int(by[attackers.white_moved(f[0])], 16) for f, by in zip(asked, sets)]
    return [b' '.join(b'%d' % (by >> s & 1) for s in way) for by, way in zip(enemies, ways)]


def way_of(text, side):
    """Where the king was, crossed and went."""
    home = 0 if attackers.white_moved(text) else 56
    king, rook, _ = AFTER[side.decode()]
    return home + 4, home + rook, home + king


def names(squares):
    return attackers.line(name(s) for s in range(64) if squares >> s & 1)


def named(answer):
    """How many men an answer names, in each of its fields."""
    return ','.join('%d' % (part != b'-' and part.count(b' ') + 1) for part in answer.split(b'\t'))
