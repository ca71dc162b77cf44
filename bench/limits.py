"""Texts at a limit of document 01: a little below it, at it, and a little above."""

from layout import text
from writer import ENDS, INTEGERS, NAMES, SECTIONS, Writer, conversion, number, signed

# What most of these programs declare: one variable of each type, a loop variable and an array.
CELLS = "B : BOOL ; I , X : INT ; U : UINT ; D : DINT ; W : UDINT ; A : ARRAY [ 0 .. 3 ] OF INT ;".split()
OF_TYPE = {"BOOL": "B", "INT": "X", "UINT": "U", "DINT": "D", "UDINT": "W"}


def near(limit, random):
    return limit + random.choice((-1, 0, 0, 1, 1, 2))


def program(declarations, body):
    return ["PROGRAM", "P", "VAR"] + declarations + ["END_VAR"] + body + ["END_PROGRAM"]


def size(random):
    """8,191 to 8,193 bytes, by a comment, blanks or empty statements."""
    start = text(Writer(random).program()[:-1], random)
    left = 8191 + random.randint(0, 2) - len(start + " END_PROGRAM")
    return start + random.choice(("(*" + "x" * (left - 4) + "*)", " " * left, ";" * left)) + " END_PROGRAM"


def names(random):
    """A name of 24 bytes or 25."""
    words = Writer(random).program()
    old = random.choice([word for word in words if word in NAMES])
    new = random.choice(("ABCDEFGHIJKLMNOPQRSTUVWXYZ", "X1Y2_Z3A4_B5C6_D7E8_F9G0_H"))[: near(24, random)]
    return text([new if word == old else word for word in words], random)


def cells(random):
    left = near(64, random)
    words = ["PROGRAM", "P"]
    while left > 0:
        part = min(left, random.choice((1, 2, 3, 16, 40)))
        left -= part
        if random.random() < 0.5:
            words += ["VAR", "V%d" % left, ":", "ARRAY", "[", "5", "..", str(4 + part), "]", "OF"]
        else:
            words += [random.choice(SECTIONS)] + " , ".join("V%d" % (left + k) for k in range(part)).split() + [":"]
        words += [random.choice(tuple(ENDS)), ";", "END_VAR"]
    return text(words + [";", "END_PROGRAM"], random)


def brackets(random):
    """Brackets 63 to 66 deep: round ones, of conversions, one pair of a subscript."""
    words, closing, type, inside = [], [], "INT", False
    for _ in range(near(64, random)):
        draw = random.random()
        if draw < 0.2 and len(words) < 80:
            source = random.choice([other for other in INTEGERS if other != type])
            words += [conversion(source, type), "("]
            type = source
        elif draw < 0.25 and type == "INT" and not inside:
            words += ["A", "["]
            type, inside = "DINT", True
        else:
            words.append("(")
        closing.append("]" if words[-1] == "[" else ")")
    leaf = "1" if inside else OF_TYPE[type]
    return text(program(CELLS, ["X", ":="] + words + [leaf] + closing[::-1] + [";"]), random)


def depth(random):
    """A statement at depth 31 to 34."""
    deepest = near(32, random)
    loops = "".join("I%d , " % k for k in range(1, deepest + 1)) + "I0 : INT ;"
    return text(program(CELLS + loops.split(), nested(deepest, random) + [";"]), random)


def nested(deep, random):
    """A statement that holds one `deep` deeper."""
    if deep == 0:
        return random.choice((["X", ":=", "1"], [], ["IF", "B", "THEN", ";", "END_IF"]))
    gain = random.randint(1, min(deep, 4))
    inner = nested(deep - gain, random) + [";"]
    draw = random.random()
    if gain == 1 and draw < 0.3:
        return ["FOR", "I%d" % deep, ":=", "1", "TO", "1", "DO"] + inner + ["END_FOR"]
    if random.random() < 0.2:
        inner = [";", "ELSE"] + inner
    if draw < 0.7:
        return ["IF", "B", "THEN"] + [";", "ELSIF", "B", "THEN"] * (gain - 1) + inner + ["END_IF"]
    return ["CASE", "X", "OF"] + ["1", ":", ";"] * (gain - 1) + ["2", ":"] + inner + ["END_CASE"]


def tall(type, high, random, leaves=OF_TYPE):
    """An expression of the given height."""
    if high <= 1:
        return [leaves[type]]
    draw = random.random()
    if draw < 0.3 and type != "BOOL":
        source = random.choice([other for other in INTEGERS if other != type])
        return [conversion(source, type), "("] + tall(source, high - 1, random, leaves) + [")"]
    if draw < 0.4 and type == "BOOL":
        source = random.choice(INTEGERS)
        return ["("] + tall(source, high - 1, random, leaves) + [")", random.choice(("<", ">=", "=", "<>")), leaves[source]]
    inner = ["("] + tall(type, high - 1, random, leaves) + [")"]
    if draw < 0.5 and (type == "BOOL" or signed(type)):
        return ["NOT" if type == "BOOL" else "-"] + inner
    sign = random.choice(("AND", "XOR", "OR", "=") if type == "BOOL" else "+-*")
    return random.choice((inner + [sign, leaves[type]], [leaves[type], sign] + inner))


def heights(random):
    """Expressions 31 to 34 high: a right side, a condition, a bound, a subscript, the tests of an arm."""
    high = near(32, random)
    numbers = {type: "1" for type in INTEGERS}
    place = random.randrange(5)
    if place == 0:
        type = random.choice(tuple(ENDS))
        body = [OF_TYPE[type], ":="] + tall(type, high, random)
    elif place == 1:
        body = ["IF"] + tall("BOOL", high, random) + ["THEN", ";", "END_IF"]
    elif place == 2:
        body = ["FOR", "I", ":=", "32767", "TO"] + tall("INT", high, random, numbers) + ["DO", ";", "END_FOR"]
    elif place == 3:
        subscript = ["A", "[", "("] + tall("DINT", high - 1, random, numbers) + [")", "*", "0", "]"]
        body = random.choice((["X", ":="] + subscript, subscript + [":=", "1"]))
    else:
        selector = random.choice((1, 2, 28, 30, 31))
        labels = " , ".join(random.choice(("1", "2", "3 .. 4")) for _ in range(max(1, high - selector))).split()
        body = ["CASE"] + tall("DINT", selector, random) + ["OF"] + labels + [":", "X", ":=", "1", ";", "END_CASE"]
    return text(program(CELLS, body + [";"]), random)


# Statements with their weights and the number of cells that they assign.
WEIGHED = (
    ("X := 1 ;", 1, 1),
    ("A [ 1 ] := A [ 2 ] ;", 1, 1),
    ("X := X + 1 ;", 3, 1),
    ("B := NOT B ;", 2, 1),
    ("IF B THEN X := 1 ; U := 2 ; ELSE X := 2 ; END_IF ;", 6, 2),
    ("CASE X OF 1 : U := 1 ; 2 .. 3 : U := 2 ; END_CASE ;", 14, 1),
)


def weight(random):
    """A weight of 2,999 to 3,002: some statements, one repeated, empty passes for the rest, and at times a wrong subscript."""
    left = near(3000, random)
    parts = []
    for _ in range(random.randint(0, 6)):
        words, own, _ = random.choice(WEIGHED)
        parts.append(words)
        left -= own
    words, own, assigned = random.choice(WEIGHED)
    condition = random.random() < 0.3
    left -= 2 + assigned if condition else 0
    loop = "FOR I := 1 TO %d DO %s END_FOR ;" % (left // (1 + own), words)
    parts.append("IF B THEN %s END_IF ;" % loop if condition else loop)
    if left % (1 + own):
        parts.append("FOR I := 1 TO %d DO ; END_FOR ;" % (left % (1 + own)))
    if random.random() < 0.1:
        parts.append("A [ 4 ] := X ;")
    random.shuffle(parts)
    return text(program(CELLS, " ".join(parts).split()), random)


def values(random):
    """A number at the ends of a type or past them: declared, assigned, compared, as label, divisor and bound."""
    type = random.choice(INTEGERS)
    value = number(random.choice(ENDS[type]) + random.choice((-1, 0, 0, 1)))
    cell = OF_TYPE[type]
    declared = ["V", ":", type, ":="] + value + [";"] if random.random() < 0.3 else []
    body = random.choice((
        [cell, ":="] + value,
        [cell, ":=", cell, random.choice(("+", "-", "*", "/", "MOD"))] + value,
        ["B", ":=", cell, "<"] + value,
        ["B", ":=", cell, "=", "-", "("] + value + [")"],
        ["CASE", cell, "OF"] + value + [":", "X", ":=", "1", ";", "END_CASE"],
        ["FOR", cell, ":="] + value + ["TO"] + value + ["DO", ";", "END_FOR"],
    ))
    return text(program(CELLS + declared, body + [";"]), random)


def passes(random):
    """A FOR whose bounds and step are at the ends of a type."""
    type = random.choice(INTEGERS)
    low, high = ENDS[type]
    first, last = (random.choice((low, low + 1, 0, high - 1, high)) for _ in range(2))
    step = random.choice((0, 1, 2, -1, -2, low, low // 2, high // 2, high, high - 1))
    head = ["FOR", OF_TYPE[type], ":="] + number(first) + ["TO"] + number(last) + ["BY"] + number(step) + ["DO"]
    body = random.choice((";", "I := I + 1 ;", "B := %s < 5 ;" % OF_TYPE[type], "A [ I ] := 1 ;")).split()
    return text(program(CELLS, head + body + ["END_FOR", ";"]), random)


def subscripts(random):
    """A subscript at the ends of its array or past them."""
    lo = random.choice((0, 1, 32766, 65534, 2**31 - 4))
    hi = lo + random.randint(0, 3)
    at = " ".join(number(random.choice((lo - 1, lo, hi, hi + 1, 2**32 - lo))))
    body = random.choice((
        "E [ %s ] := 1 ;",
        "X := X + E [ %s ] ;",
        "IF FALSE THEN X := E [ %s ] ; END_IF ;",
        "CASE E [ %s ] OF 1 : ; END_CASE ;",
        "FOR I := 2 TO 1 DO E [ %s ] := 1 ; END_FOR ;",
        "FOR W := 1 TO 2 DO X := E [ W + %s - 1 ] ; END_FOR ;",
        "FOR I := -1 TO 1 DO E [ INT_TO_DINT ( I ) + %s ] := I ; END_FOR ;",
    )) % at
    return text(program(CELLS + ("E : ARRAY [ %d .. %d ] OF INT ;" % (lo, hi)).split(), body.split()), random)


def prints(random):
    """A print of 65,535 to 65,538 bytes: the same long line again and again, the rest by short lines and the program's name."""
    name = "LONG_NAME_OF_TWENTYFOUR" + random.choice("AB")
    line = "%s := %s;\n" % (name, name)
    left = near(65536, random) - len("PROGRAM P\nVAR\nI : INT := 0;\n%s : DINT := 0;\nEND_VAR\nEND_PROGRAM\n" % name)
    count = 0
    while left >= len("I := %d;\n" % (count + 1) + line):
        count += 1
        left -= len("I := %d;\n" % count + line)
    lines = "FOR I := 1 TO %d DO %s := %s; END_FOR; " % (count, name, name) + "I := 5; " * (left // 8)
    return "PROGRAM %s VAR I : INT; %s : DINT; END_VAR %s END_PROGRAM" % ("P" * (1 + left % 8), name, lines)


OFTEN = (size, names, cells, brackets, depth, heights, weight, values, passes, subscripts)
SELDOM = (prints,)


def limit(random):
    return random.choice(SELDOM if random.random() < 0.01 else OFTEN)(random)
