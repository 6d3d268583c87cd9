"""Who attacks a square, looked for from that square outwards, in plain Python; the checkers, and what bars a castling. `compare` holds `brute` to it,
which goes from man to man and asks of each whether he attacks. Texts are accepted ones, in bytes; squares are names."""
from functools import lru_cache
import editions

STRAIGHT, SLANTING = [(1, 0), (-1, 0), (0, 1), (0, -1)], [(1, 1), (1, -1), (-1, 1), (-1, -1)]
LEAPS = [(1, 2), (2, 1), (2, -1), (1, -2), (-1, -2), (-2, -1), (-2, 1), (-1, 2)]
CASTLED = {'k': ('g', 'f', 'h', 'h'), 'q': ('c', 'd', 'a', 'ab')}  # the king's file, the rook's, its corner's, and those that are empty
SQUARES = [file + rank for rank in '12345678' for file in 'abcdefgh']
men_of = lru_cache(editions.men_of)


def away(square, files, ranks):
    """The square so many files and ranks from here; beyond the edge a name that no square has."""
    return chr(ord(square[0]) + files) + str(int(square[1]) + ranks)


@lru_cache(None)
def way_from(square, way):
    """The squares on a line from this one, the nearest first."""
    far = [away(square, n * way[0], n * way[1]) for n in range(1, 8)]
    return [at for at in far if at in SQUARES]


def coloured(kind, white):
    return kind if white else kind.lower()


@lru_cache(None)
def steps_to(square, white):
    """Where a pawn, a knight or a king of that colour attacks this square from. A pawn attacks forwards, so it stands behind what it attacks."""
    behind = -1 if white else 1
    steps = [('P', [(-1, behind), (1, behind)]), ('N', LEAPS), ('K', STRAIGHT + SLANTING)]
    return [(at, coloured(kind, white)) for kind, ways in steps for at in (away(square, *way) for way in ways) if at in SQUARES]


def attackers(men, square, white):
    """The squares of that colour's men that attack this one, a1 first: on each line the first man alone can."""
    found = [at for at, man in steps_to(square, white) if men[at] == man]
    for kinds, ways in ((coloured('RQ', white), STRAIGHT), (coloured('BQ', white), SLANTING)):
        met = [next((at for at in way_from(square, way) if men[at] != '.'), None) for way in ways]
        found += [at for at in met if at and men[at] in kinds]
    return sorted(found, key=SQUARES.index)


def line(squares):
    return ' '.join(squares).encode() or b'-'


def white_moved(text):
    return b' b ' in text


def of_square(text, number, white):
    return line(attackers(men_of(text), editions.name(number), white))


def checkers(text):
    men, white = men_of(text), white_moved(text)
    king = next(at for at, man in men.items() if man == coloured('K', not white))
    return line(at for at in attackers(men, king, white) if men[at] not in 'Kk')


def castling(text, side):
    """Of the castling of the side that has just moved; 11 is of no text, as a king with a right stands on e1 or e8."""
    men, white = dict(men_of(text)), white_moved(text)
    king, rook, corner, empty = CASTLED[side]
    rank = '1' if white else '8'
    was, crossed, went = (file + rank for file in ('e', rook, king))
    if men[went] == '.' or men[went].isupper() != white:
        return b'refused 9'
    if men[was] != '.':
        return b'refused 10'
    if (men[went], men[crossed]) != (coloured('K', white), coloured('R', white)) or any(men[file + rank] != '.' for file in empty):
        return b'refused 12'
    men.update({went: '.', crossed: '.', was: coloured('K', white), corner + rank: coloured('R', white)})
    return b'\t'.join(line(attackers(men, at, not white)) for at in (was, crossed, went))
