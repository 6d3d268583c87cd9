"""What `compare` asks about histories: a question to `ask` of each board in both editions, and lines of the program `histories`, whole and damaged."""
DEPTHS = [b'1', b'2', b'2', b'3', b'3', b'3', b'4', b'4', b'4', b'4']
NO_DEPTHS = [b'0', b'5', b'6', b'9', b'10', b'12', b'40', b'255', b'256', b'257', b'260', b'1000', b'65537', b'4294967298', b'18446744073709551619', b'4' * 30]
NO_FORMS = [b'', b'01', b'00', b'04', b'-', b'-1', b'+2', b'2 ', b' 2', b'2\r', b'2\0', b'\t2', b'2\t', b'2 2', b'2.0', b'0x2', b'II', b'?', b'\xd9\xa2', b'2b']


def depth(rng):
    return rng.choice(DEPTHS if rng.random() < .95 else NO_DEPTHS)


def questions(rng, boards):
    """Of boards that are an edition and a text."""
    return [b'history\t%s\t%s\t%s' % (edition.encode(), text, depth(rng)) for edition, text in boards]


def lines(rng, texts):
    """One of ten is damaged."""
    return [line(rng, text) if rng.random() < .9 else damaged(rng, text) for text in texts]


def line(rng, text):
    return text + b' ' + depth(rng)


def damaged(rng, text):
    """A depth out of form, none, one before the text, two, or another sign in place of a space."""
    whole = line(rng, text)
    between = rng.choice([i for i in range(len(whole)) if whole[i:i + 1] == b' '])
    other = whole[:between] + rng.choice([b'', b'\t', b'  ', b'\0', b'\r', b'_']) + whole[between + 1:]
    return rng.choice([text + b' ' + rng.choice(NO_FORMS), text, depth(rng) + b' ' + text, whole + b' ' + depth(rng), other])
