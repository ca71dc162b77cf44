"""Words laid out as a text: blanks, comments, letters in both cases, digits with underscores."""

COMMENTS = ("(**)", "(***)", "(* x *)", "(* END_VAR; (* \n *)", "(*)*)", "(*\x00\xff\x0b*)")
GAPS = (" ", " ", " ", "  ", "\t", "\r\n", "\n", "\n\n") + COMMENTS


def wordlike(byte):
    return byte.isalnum() or byte == "_"


def respelled(word, random):
    """The same word in other letters, or the same number in other digits."""
    draw = random.random()
    if word.isdigit():
        if draw < 0.5:
            return "0" * random.randint(1, 3) + word
        return "_".join(word)
    if draw < 0.5:
        return word.lower()
    return "".join(random.choice((letter.lower(), letter)) for letter in word)


def text(words, random):
    """The text as one string of bytes, in one of three manners: plain, without blanks, wild."""
    manner = random.choice("pppttw")
    odd = random.choice((0, 0, 0.03, 0.3))
    small = random.random() < 0.4
    out = []
    before = " "
    for word in words:
        if random.random() < odd and wordlike(word[0]):
            word = respelled(word, random)
        elif small:
            word = word.lower()
        if manner == "w":
            out.append(random.choice(GAPS))
        elif wordlike(before) and wordlike(word[0]):
            out.append(" ")
        elif manner == "p":
            out.append("\n" if before == ";" else " ")
        out.append(word)
        before = word[-1]
    if random.random() < 0.2:
        out.append(random.choice(GAPS))
    return "".join(out)
