"""The self-check of volumes.py: the example of docs/VOLUME.md byte by byte, both round trips, the bodies as `brute` reads them, and the example with each of
its bits changed. The oracle has to be built before this is imported."""
import re
from collections import Counter
import volumes, volumes_asked
from programs import BRUTE, ROOT, ask
from volumes import A, B

SEED = 1
BYTES = re.compile(r'^    ([0-9A-F]{4})  ([0-9A-F]{2}(?: [0-9A-F]{2})*)(?:  .*)?$', re.M)
TEXTS = re.compile(r'^    (\S+/\S+ [wb] \S+ \S+)$', re.M)
ROUNDS = 300


class Wrong(Exception):
    """What does not hold."""


def hold(what, left, right):
    if left != right:
        raise Wrong('%s: %r is not %r' % (what, left, right))


def example():
    """The lines of the document's example, and its volume."""
    with open(ROOT + '/docs/VOLUME.md') as file:
        part = file.read().split('## Two problems')[1].split('\n## ')[0]
    volume = b''
    for address, shown in BYTES.findall(part):
        hold('an address', int(address, 16), len(volume))
        volume += bytes.fromhex(shown)
    return volumes_asked.joined(text.encode() for text in TEXTS.findall(part)), volume


def as_written():
    lines, volume = example()
    hold('the example of volumes_asked', volumes_asked.EXAMPLE, lines)
    hold('its volume', volumes.make(lines), ('written', volume))
    hold('its lines', volumes.lines(volume), ('written', lines))
    hold('its problems', volumes.check(volume), ('counted', 2))
    for number, text in enumerate(lines.split(b'\n')[:-1], 1):
        hold('a problem', volumes.problem(volume, number), ('found', A, text))
    hold('no problem', volumes.problem(volume, 3), ('absent',))
    hold('no lines', volumes.make(b''), ('written', bytes.fromhex('564F4C010000')))
    hold('an empty volume', volumes.lines(bytes.fromhex('564F4C010000')), ('written', b''))
    hold('the longest', volumes.size(volumes.MOST), 2752476)
    return 'the example of docs/VOLUME.md, %d bytes' % len(volume)


def round_trips(t):
    """Lines to volume and back, and the volume made of them to lines and back; problems of either edition bound and shown."""
    registers = [t.lines() for _ in range(ROUNDS)] + [t.by[A, 0]]
    for lines in registers:
        file = volumes_asked.joined(lines)
        volume = volumes.make(file)[1]
        hold('lines and back', volumes.lines(volume), ('written', file))
        hold('a volume and back', volumes.make(volumes.lines(volume)[1]), ('written', volume))
    problems = [(2 * i + 1, edition, text) for i, (edition, text) in enumerate((e, text) for e in (A, B) for text in t.by[e, 0][:40])]
    volume = volumes.volume_of(problems)
    for number, edition, text in problems:
        hold('a bound problem', volumes.problem(volume, number), ('found', edition, text))
        hold('one not bound', volumes.problem(volume, number + 1), ('absent',))
    return 'round trips of %d registers, the longest of %d lines; %d problems bound and shown' % (len(registers), len(t.by[A, 0]), len(problems))


def raw(body):
    """The body as raw men for `brute`, which prints them itself."""
    men = ''.join('%02x' % byte for byte in body[:32])
    at = [(half, 8 * (7 - i // 8) + i % 8) for i, half in enumerate(int(c, 16) for c in men)]
    sets = [sum(1 << square for half, square in at if half >> 1 == kind) for kind in range(1, 7)]
    sets += [sum(1 << square for half, square in at if half > 1 and half % 2 == colour) for colour in (0, 1)]
    rights = ''.join(c for c, bit in zip('KQkq', (2, 4, 8, 16)) if body[32] & bit) or '-'
    state = '-' if body[33] == 64 else '?' if body[33] == 65 else str(body[33])
    return ('%s %s %s %s' % (' '.join('%x' % s for s in sets), 'b' if body[32] & 1 else 'w', rights, state)).encode()


def by_brute(t):
    """`brute` reads the halves of a body by their bits: the kind in the upper three, the colour in the lowest."""
    asked = 0
    for edition in (A, B):
        bodies = [volumes.body_of(text) for text in t.by[edition, 0]]
        for text, said in zip(t.by[edition, 0], ask([BRUTE, 'raw', edition], [raw(body) for body in bodies])):
            hold('a body as raw men', said, text)
        asked += len(bodies)
    return '%d bodies printed by brute from their bits' % asked


def bits():
    """No bit can change without a refusal or other lines."""
    lines, volume = example()
    counts = Counter()
    for file in volumes_asked.flipped(volume):
        said = volumes.lines(file)
        if said[0] == 'written' and said[1] == lines or said[0] == 'refused' and said[1] not in (17, 18, *range(1, 7)):
            raise Wrong('a changed bit: %r' % (said,))
        counts['other lines' if said[0] == 'written' else volumes_asked.kind(said)] += 1
    return '%d bits changed: %s' % (sum(counts.values()), ', '.join('%s %d' % each for each in sorted(counts.items())))


def main():
    """The exit status."""
    t = volumes_asked.Texts(SEED)
    try:
        for part in (as_written, lambda: round_trips(t), lambda: by_brute(t), bits):
            print(part())
    except Wrong as wrong:
        print('wrong:', wrong)
        return 1
    return 0
