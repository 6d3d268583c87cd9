"""The two editions of document 02, item 1, where they touch a text: turning one into the other, and the ported list under edition B's dash. Texts
are accepted ones, in bytes."""
POINTS = {ord(str(n)): '.' * n for n in range(1, 9)}


def men_of(text):
    """The men by the name of their square, '.' for nobody."""
    rows = text.decode().split(' ')[0].translate(POINTS).split('/')
    return {file + str(8 - i): c for i, row in enumerate(rows) for file, c in zip('abcdefgh', row)}


def state_of(text):
    return text.rpartition(b' ')[2]


def with_state(text, state):
    return text.rpartition(b' ')[0] + b' ' + state


def has_neighbour(text):
    """Whether a pawn of the side to move stands beside the square that the text names."""
    file, rank = state_of(text).decode()
    men, pawn = men_of(text), 'P' if b' w ' in text else 'p'
    return any(men.get(chr(ord(file) + d) + rank) == pawn for d in (-1, 1))


def turned(edition, text):
    """A text of this edition in the other one: A's dash leaves open whether the last move was a double step, B's square may have no neighbour."""
    state = state_of(text)
    if edition == b'A':
        return with_state(text, b'?') if state == b'-' else text
    return with_state(text, b'-') if state not in (b'-', b'?') and not has_neighbour(text) else text


def name(square):
    return 'abcdefgh'[square % 8] + str(square // 8 + 1)


def listed(edition, text, entries, retractions):
    """How many entries the ported list has, and its retractions packed, of what `ported entries` and `ported list` say."""
    targets = [entry.split(b':')[:2] for entry in entries.split()[6:]]
    each = [(s.decode(), [t for t in range(64) if int(set_, 16) >> t & 1]) for s, set_ in targets]
    packed = [int(r) for r in retractions.split()[1:]]
    if edition == b'B' and state_of(text) == b'-':
        men = men_of(text)
        each = [(s, [t for t in squares if not double_step(men, s, name(t))]) for s, squares in each]
        packed = [r for r in packed if not double_step(men, name(r % 64), name(r // 64 % 64))]
    return sum(1 for _, squares in each if squares), packed


def double_step(men, source, target):
    """A pawn's retraction over two ranks."""
    return men[source] in 'Pp' and abs(int(source[1]) - int(target[1])) == 2
