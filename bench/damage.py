"""Damage done to a program, at its words or at its bytes."""

from writer import ENDS, INTEGERS, NAMES, conversion

NUMBERS = [str(n) for n in (0, 1, 2, 63, 64, 3000, 3001)] + [str(2**bits + d) for bits in (15, 16, 31, 32) for d in (-1, 0, 1)]
# Classes of words. One replaced by another of its class mostly leaves the shape whole in the mild ones, and breaks it in the harsh.
MILD = (
    tuple(ENDS),
    ("+", "-", "*", "/", "MOD", "<", ">", "<=", ">=", "=", "<>", "AND", "&", "XOR", "OR"),
    tuple(conversion(source, type) for source in INTEGERS for type in INTEGERS if source != type),
    ("TRUE", "FALSE", "0", "1"),
)
HARSH = (
    ("VAR", "VAR_INPUT", "VAR_OUTPUT"),
    ("(", ")", "[", "]", ",", ";", ":", ":=", "..", ".", "NOT"),
    ("PROGRAM", "END_VAR", "IF", "THEN", "ELSIF", "ELSE", "END_IF", "CASE", "OF", "END_CASE"),
    ("FOR", "TO", "BY", "DO", "END_FOR", "EXIT"),
)
FELLOWS = {word: fellows for fellows in HARSH + MILD for word in fellows}
BREAKING = {word for fellows in HARSH for word in fellows}
BYTES = "\x00\t\n\x0c\x7f\x80\xff !\"#$%&'()*+,-./0123456789:;<=>?@ABZ[\\]^_`az{|}~"


def replaced(words, random):
    """One word replaced by another of its class; a name mostly by another name of the program."""
    at = random.randrange(len(words))
    while words[at] in BREAKING and random.random() < 0.9:
        at = random.randrange(len(words))
    word = words[at]
    if word.isdigit():
        fellows = NUMBERS
    elif word in FELLOWS:
        fellows = FELLOWS[word]
    else:
        fellows = NAMES if random.random() < 0.2 else [w for w in words if w in NAMES] or NAMES
    return words[:at] + [random.choice(fellows)] + words[at + 1 :]


def torn(row, random, longest):
    """A stretch of words or bytes dropped, doubled, moved or turned round."""
    length = random.randint(1, longest)
    at = random.randrange(len(row))
    part, rest = row[at : at + length], row[:at] + row[at + length :]
    to = random.randint(0, len(rest))
    doubled, moved, turned = row[:at] + part + row[at:], rest[:to] + part + rest[to:], row[:at] + part[::-1] + row[at + length :]
    return random.choice((rest, doubled, moved, turned))


def damaged_words(words, random):
    for _ in range(random.choice((1, 1, 1, 2, 3))):
        if words:
            words = replaced(words, random) if random.random() < 0.7 else torn(words, random, random.choice((1, 2, 20)))
    return words


def damaged_bytes(text, random):
    for _ in range(random.choice((1, 1, 2))):
        if text and random.random() < 0.5:
            at = random.randrange(len(text))
            text = text[:at] + random.choice(BYTES) + text[at + random.randint(0, 1) :]
        elif text:
            text = torn(text, random, random.choice((1, 2, 50)))
    return text
