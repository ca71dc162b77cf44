"""Random programs, each as a list of words: of good shape, and well-typed but for slips."""

from collections import namedtuple

ENDS = {"BOOL": (0, 1), "INT": (-2**15, 2**15 - 1), "UINT": (0, 2**16 - 1), "DINT": (-2**31, 2**31 - 1), "UDINT": (0, 2**32 - 1)}
INTEGERS = ("INT", "UINT", "DINT", "UDINT")
SECTIONS = ("VAR_INPUT", "VAR_OUTPUT", "VAR")
NAMES = """A B C D E F G H I J K L M N O P Q R S T U V W X Y Z _A _1 A1 B_2 FLOW_RATE TOTAL SHOWN LEVEL VALVE_OPEN GO
    INT_TO_INT BOOL_TO_INT REAL CONSTANT LOWFLOW_CUTOFF_COUNTER_2 _1_2_3_4_5_6_7_8_9_A_B_C MODULO ORDER NOTE IFS TOO FORK""".split()

Variable = namedtuple("Variable", "name type lo hi")  # lo and hi are an array's, else None
Loop = namedtuple("Loop", "name type low high")  # a FOR around, and the least and greatest value of its variable


def signed(type):
    return ENDS[type][0] < 0


def fits(value, type):
    return ENDS[type][0] <= value <= ENDS[type][1]


def number(value):
    """The words of a number."""
    return ["-", str(-value)] if value < 0 else [str(value)]


def conversion(source, type):
    return source + "_TO_" + type


class Writer:
    """A program in the making: what is declared, the FORs around, and roughly the weight so far."""

    def __init__(self, random, slip=0.0):
        self.random = random
        self.chance = random.random
        self.pick = random.choice
        self.slip = slip
        self.names = iter(random.sample(NAMES, len(NAMES)))
        self.readable = {type: [] for type in ENDS}
        self.assignable = []
        self.loops = []
        self.times = 1
        self.weight = 0
        self.height = self.pick((1, 2, 2, 3, 3, 4))

    def slips(self):
        """Whether a rule is broken here."""
        return self.slip > 0 and self.chance() < self.slip

    def program(self):
        words = ["PROGRAM", self.pick(NAMES)]
        for _ in range(self.pick((0, 1, 2, 2, 3, 3, 4))):
            words += self.section()
        return words + self.statements(self.pick((0, 1, 2, 3, 5)), self.pick((1, 2, 3, 5, 8))) + ["END_PROGRAM"]

    # Declarations

    def section(self):
        kind = self.pick(SECTIONS)
        words = [kind]
        for _ in range(self.pick((1, 1, 2, 3))):
            words += self.declaration(kind)
        return words + ["END_VAR"]

    def declaration(self, kind):
        type = self.pick(tuple(ENDS))
        lo = hi = None
        tail = [":", type]
        if kind == "VAR" and self.chance() < 0.3:
            lo = self.pick((0, 0, 1, 1, 7, 32765, 65533, 2**31 - 9))
            hi = lo + self.pick((-1, 9) if self.slips() else (0, 1, 2, 3, 4, 8))
            tail = [":", "ARRAY", "[", str(lo), "..", str(abs(hi)), "]", "OF", type]
        elif kind != "VAR_INPUT" and self.chance() < 0.5:
            tail += [":="] + self.literal(type)
        words = []
        for _ in range(self.pick((1, 1, 1, 2, 3))):
            variable = Variable(self.pick(NAMES) if self.slips() else next(self.names), type, lo, hi)
            self.readable[type].append(variable)
            if kind != "VAR_INPUT" or self.slips():
                self.assignable.append(variable)
            words += [",", variable.name]
        return words[1:] + tail + [";"]

    # Expressions

    def literal(self, type):
        if self.slips():
            type = self.pick(tuple(ENDS))
        if type == "BOOL":
            return [self.pick(("TRUE", "FALSE"))]
        low, high = ENDS[type]
        draw = self.chance()
        if draw < 0.6:
            return number(self.random.randint(max(low, -9), 9))
        if draw < 0.8:
            return number(self.pick((low, low + 1, high - 1, high)))
        return number(self.random.randint(low, high))

    def leaf(self, type):
        if self.readable[type] and self.chance() < 0.75:
            return self.element(self.pick(self.readable[type]))
        return self.literal(type)

    def element(self, variable):
        """A variable, or an element of an array."""
        if (variable.lo is None) != self.slips():
            return [variable.name]
        return [variable.name, "["] + self.subscript(variable.lo or 0, variable.hi or 0) + ["]"]

    def subscript(self, lo, hi):
        if self.slips():
            return self.pick((number(lo - 1), number(hi + 1), self.value(self.pick(INTEGERS), 1)))
        if self.loops and self.chance() < 0.7:
            loop = self.pick(self.loops)
            if loop.high - loop.low <= hi - lo and fits(loop.high, "DINT"):
                by = self.random.randint(lo - loop.low, hi - loop.high)
                if fits(abs(by), "DINT"):
                    return self.shifted(loop, by)
        return self.spelled(self.random.randint(min(lo, hi), hi), "DINT")

    def shifted(self, loop, by):
        """The variable of a FOR around, and a number added."""
        words = [loop.name]
        if not fits(abs(by), loop.type) or not fits(loop.high + by, loop.type):
            words = [conversion(loop.type, "DINT"), "(", loop.name, ")"]
        if by == 0:
            return words if self.chance() < 0.8 else ["("] + words + [")"]
        return words + ["+" if by > 0 else "-", str(abs(by))]

    def spelled(self, value, type):
        """A number, at times worked out of others."""
        if self.slips():
            return self.value(type, 1)
        other = self.random.randint(0, 9)
        if self.chance() < 0.85 or not fits(value - other, type) or not fits(value + other, type):
            return number(value)
        plus = number(value - other) + ["+", str(other)]
        minus = number(value + other) + ["-", str(other)]
        return self.pick((plus, minus, ["("] + number(value) + [")", "*", "1"]))

    def value(self, type, high):
        """An expression of the type; high bounds how operators stand in each other."""
        if self.slips():
            type = self.pick(tuple(ENDS))
        if high <= 0 or self.chance() < 0.2:
            return self.leaf(type)
        return self.truth(high - 1) if type == "BOOL" else self.arithmetic(type, high - 1)

    def closed(self, type, high):
        """An expression that can stand behind NOT or a minus."""
        if self.readable[type] and self.chance() < 0.5:
            return self.element(self.pick(self.readable[type]))
        return ["("] + self.value(type, high) + [")"]

    def arithmetic(self, type, high):
        draw = self.chance()
        if draw < 0.5:
            return self.value(type, high) + [self.pick("+-*")] + self.value(type, high)
        if draw < 0.65:
            return self.value(type, high) + [self.pick(("/", "MOD"))] + self.divisor(type)
        if draw < 0.75 and (signed(type) or self.slips()):
            return ["-"] + self.closed(type, high)
        if draw < 0.9:
            source = self.pick([other for other in INTEGERS if other != type])
            return [conversion(source, type), "("] + self.value(source, high) + [")"]
        return ["("] + self.value(type, high) + [")"]

    def divisor(self, type):
        if self.slips():
            return self.pick((["0"], ["-", "0"], self.closed(type, 1)))
        words = self.literal(type)
        return words if words != ["0"] else ["7"]

    def truth(self, high):
        draw = self.chance()
        if draw < 0.4:
            return self.order(("<", ">", "<=", ">=", "=", "<>"), high)
        if draw < 0.7:
            return self.value("BOOL", high) + [self.pick(("AND", "&", "XOR", "OR"))] + self.value("BOOL", high)
        if draw < 0.85:
            return ["NOT"] + self.closed("BOOL", high)
        left = self.closed("BOOL", high) if self.chance() < 0.5 else self.order(("<", ">", "<=", ">="), high)
        return left + [self.pick(("=", "<>"))] + self.closed("BOOL", high)

    def order(self, signs, high):
        type, left = self.firm(high)
        return left + [self.pick(signs)] + self.value(type, high)

    def firm(self, high):
        """An integer type, and an expression that has it without help from its surroundings."""
        type = self.pick([type for type in INTEGERS if self.readable[type]] or ["DINT"])
        words = self.value(type, high)
        numbers_only = not any(word[0].isalpha() and word != "MOD" or word[0] == "_" for word in words)
        if numbers_only and type != "DINT" and not self.slips():
            words = self.element(self.pick(self.readable[type]))
        return type, words

    # Statements

    def statements(self, depth, count):
        words = []
        for _ in range(count):
            words += self.statement(depth) + [";"]
        return words

    def statement(self, depth):
        """One without its `;`. No further ones are nested where the program has got heavy."""
        draw = self.chance()
        if draw < 0.05:
            return []
        if depth > 0 and (self.weight < 1500 or self.slips()):
            if draw < 0.25:
                return self.branches(depth - 1)
            if draw < 0.38:
                return self.case(depth - 1)
            if draw < 0.6:
                return self.loop(depth - 1)
        return self.assignment()

    def inner(self, depth):
        return self.statements(depth, self.pick((1, 1, 2, 3)))

    def free(self):
        """The variables that may be assigned here."""
        around = [] if self.slips() else [loop.name for loop in self.loops]
        return [variable for variable in self.assignable if variable.name not in around]

    def assignment(self):
        free = self.free()
        if not free:
            return []
        variable = self.pick(free)
        words = self.element(variable) + [":="] + self.value(variable.type, self.height)
        self.weight += self.times * len(words)
        return words

    def branches(self, depth):
        words = []
        for word in ["IF"] + ["ELSIF"] * self.pick((0, 0, 0, 1, 2)):
            words += [word] + self.value("BOOL", self.height) + ["THEN"] + self.inner(depth)
        if self.chance() < 0.5:
            words += ["ELSE"] + self.inner(depth)
        self.weight += self.times * len(words) // 4
        return words + ["END_IF"]

    def case(self, depth):
        type, selector = self.firm(self.height - 1)
        words = ["CASE"] + selector + ["OF"]
        for _ in range(self.pick((1, 1, 2, 3, 4))):
            labels = []
            for _ in range(self.pick((1, 1, 2, 3))):
                labels += [","] + self.label(type) + ([".."] + self.label(type) if self.chance() < 0.3 else [])
            words += labels[1:] + [":"] + self.inner(depth)
        if self.chance() < 0.5:
            words += ["ELSE"] + self.inner(depth)
        self.weight += self.times * len(words)
        return words + ["END_CASE"]

    def label(self, type):
        words = self.literal(type)
        return words if words[-1].isdigit() else ["1"]

    def loop(self, depth):
        free = [variable for variable in self.free() if variable.lo is None and variable.type != "BOOL" or self.slips()]
        if not free:
            return self.assignment()
        variable = self.pick(free)
        head, low, high, passes = self.bounds(variable.type)
        self.loops.append(Loop(variable.name, variable.type, low, high))
        self.times *= max(passes, 1)
        body = self.inner(depth)
        self.weight += self.times
        self.times //= max(passes, 1)
        self.loops.pop()
        return ["FOR", variable.name, ":="] + head + ["DO"] + body + ["END_FOR"]

    def bounds(self, type):
        """The words of a, b and c, the least and greatest value, the passes."""
        around = [loop for loop in self.loops if loop.type == type]
        if around and self.chance() < 0.3:
            loop = self.pick(around)
            last = min(loop.high + self.pick((0, 1, 3)), ENDS[type][1])
            return [loop.name, "TO"] + self.spelled(last, type), loop.low, last, last - loop.low + 1
        step = self.pick((1, 1, 1, 2, 3, -1, -2) if signed(type) else (1, 1, 2, 3))
        passes = self.pick((0, 1, 2, 3, 3, 4, 5) if self.times < 50 else (0, 1, 2))
        low, high = ENDS[type]
        first = self.pick((0, 0, 1, 1, 5, low + 8, high - 8))
        end = first + step * (passes - 1)
        last = min(max(end + self.random.randint(0, abs(step) - 1) * (1 if step > 0 else -1), low), high)
        words = self.spelled(first, type) + ["TO"] + self.spelled(last, type)
        if step != 1 or self.chance() < 0.1:
            words += ["BY"] + self.spelled(0 if self.slips() else step, type)
        return words, min(first, end), max(first, end), passes
