"""Services: what their lines declare, and the first line that is refused, with its code P1 to P14."""
from .texts import Refused, is_allowed, is_name, is_number_like, is_skipped, lines_of, natural, signed, words_of
from .values import OPERATORS

MOST_LANES, MOST_OPERANDS, MOST_LOOPS, MOST_LOCALS, MOST_HANDLER_LINES = 64, 8, 4, 16, 256
MOST_DECLARED = {"lock": 64, "sem": 64, "cond": 64, "var": 1024, "handler": 64}

# The words that are due behind each first word. Those in capitals stand for a word of that kind, EXPRESSION for one or more
# words, and NAMES for up to four.
DECLARATIONS = {
    "lanes": ["LANES"], "lock": ["NEW"], "rwlock": ["NEW"], "sem": ["NEW", "=", "FIRST"], "cond": ["NEW", "on", "PLAIN"], "var": ["NEW", "on", "LOCK", "=", "SIGNED"],
    "handler": ["NEW", "NAMES"],
}
HANDLER_LINES = {
    "acquire": ["LOCK"], "share": ["SHARED"], "release": ["LOCK"], "try": ["PLAIN"], "busy": [], "endtry": [],
    "wait": ["CONDITION", "while", "EXPRESSION"], "signal": ["CONDITION"], "broadcast": ["CONDITION"], "down": ["SEMAPHORE"], "up": ["SEMAPHORE"],
    "set": ["VARIABLE", "=", "EXPRESSION"], "let": ["LOCAL", "=", "EXPRESSION"], "clock": ["LOCAL"], "random": ["LOCAL"],
    "if": ["EXPRESSION"], "else": [], "endif": [], "repeat": ["TURNS"], "endrepeat": [], "reply": ["EXPRESSION"],
}
RANGES = {"LANES": (1, MOST_LANES), "FIRST": (0, 1000000), "TURNS": (1, 1000)}
# the kinds of declarations that a word may name
NAMED = {"LOCK": {"lock", "rwlock"}, "PLAIN": {"lock"}, "SHARED": {"rwlock"}, "CONDITION": {"cond"}, "SEMAPHORE": {"sem"}, "VARIABLE": {"var"}}
# the block that a word divides or closes, and whether the block has to be divided by then; None where it may be or not
BLOCK_WORDS = {"else": ("if", False), "endif": ("if", None), "busy": ("try", False), "endtry": ("try", True), "endrepeat": ("repeat", None)}


class Handler:
    """A handler's lines as lists of words, and their numbers. `blocks` has for each line that opens, divides or closes a block
    the places of all three, None where the block isn't divided."""

    def __init__(self, name, number, parameters):
        self.name, self.number, self.parameters = name, number, parameters
        self.lines, self.numbers, self.blocks, self.locals = [], [], {}, set(parameters)
        self.opened = []

    def add(self, words, number):
        place = len(self.lines)
        self.lines.append(words)
        self.numbers.append(number)
        if words[0] in ("if", "try", "repeat"):
            self.opened.append([place, None])
        elif words[0] in ("else", "busy"):
            self.opened[-1][1] = place
        elif words[0] in ("endif", "endtry", "endrepeat"):
            first, middle = self.opened.pop()
            for mine in (first, middle, place):
                if mine is not None:
                    self.blocks[mine] = first, middle, place
        elif words[0] in ("let", "clock", "random"):
            self.locals.add(words[1])

    def innermost(self):
        """The word that opened the innermost open block, and whether the block is divided."""
        if not self.opened:
            return None, False
        first, middle = self.opened[-1]
        return self.lines[first][0], middle is not None

    def loops(self):
        return sum(self.lines[first][0] == "repeat" for first, _ in self.opened)


class Service:
    """What the lines of a service declare. Names stand for themselves; `kinds` has the kind of each."""

    def __init__(self):
        self.lanes, self.kinds, self.locks, self.lock_of, self.variables, self.guards, self.handlers = 0, {}, [], {}, {}, {}, {}
        self.semaphores = {}
        # the line of the first declaration that lanes can't record by lock words
        self.beyond_words = None
        self.within = None

    def take(self, number, line):
        """Takes a line of a text, or refuses it."""
        if not is_allowed(line):
            raise Refused(number, "P1")
        words = words_of(line)
        if is_skipped(words):
            return
        code = self.code_of(words)
        if code:
            raise Refused(number, "P%d" % code)
        self.add(words, number)

    def is_whole(self):
        return self.within is None and bool(self.handlers)

    def add(self, words, number):
        """Adds a good line."""
        if self.within is not None:
            self.within.add(words, number)
            if words[0] == "reply":
                self.within = None
        elif words[0] == "lanes":
            self.lanes = int(words[1])
        else:
            self.declare(words, number)

    def declare(self, words, number):
        self.kinds[words[1]] = words[0]
        if words[0] in ("rwlock", "cond", "sem") and self.beyond_words is None:
            self.beyond_words = number
        if words[0] in ("lock", "rwlock"):
            self.locks.append(words[1])
        elif words[0] == "sem":
            self.semaphores[words[1]] = int(words[3])
        elif words[0] == "cond":
            self.lock_of[words[1]] = words[3]
        elif words[0] == "var":
            self.variables[words[1]], self.guards[words[1]] = int(words[5]), words[3]
        else:
            self.within = self.handlers[words[1]] = Handler(words[1], number, words[2:])

    # ---- codes

    def code_of(self, words):
        """The number of the least code that fits a line, or 0."""
        first, forms = words[0], DECLARATIONS if self.within is None else HANDLER_LINES
        if first not in forms or not self.fits_block(first):
            return 2
        if not has_form(forms[first], words[1:]):
            return 3
        codes = {code for form, word in placed(forms[first], words[1:]) for code in self.codes_of_word(form, word)}
        codes |= self.codes_of_line(words)
        return min(codes, default=0)

    def fits_block(self, first):
        if first not in BLOCK_WORDS:
            return True
        block, divided = BLOCK_WORDS[first]
        innermost, is_divided = self.within.innermost()
        return innermost == block and divided in (None, is_divided)

    def codes_of_word(self, form, word):
        """The codes of a word in its place, or of the words of an expression."""
        if form == "EXPRESSION":
            return self.codes_of_expression(word)
        if form in RANGES:
            return set() if natural(word, *RANGES[form]) is not None else {5}
        if form == "SIGNED":
            return set() if signed(word) is not None else {5}
        if not is_name(word):
            return {4}
        if form in ("NEW", "NAMES"):
            return {9} if word in self.kinds else set()
        if form == "LOCAL":
            return self.codes_of_local(word)
        if self.is_known(word):
            return set() if self.kinds.get(word) in NAMED[form] and not self.is_local(word) else {8}
        return {7}

    def is_local(self, word):
        return self.within is not None and word in self.within.locals

    def is_known(self, word):
        return self.is_local(word) or word in self.kinds

    def codes_of_local(self, word):
        """The codes of a local that a line writes, and makes where it is new."""
        if self.is_local(word):
            return set()
        if word in self.kinds:
            return {8}
        return {11} if len(self.within.locals) >= MOST_LOCALS else set()

    def codes_of_expression(self, words):
        codes = set()
        if len(words) % 2 == 0 or len(words) > 2 * MOST_OPERANDS - 1 or not all(word in OPERATORS for word in words[1::2]):
            codes.add(6)
        for word in words[::2]:
            if is_number_like(word):
                codes |= set() if signed(word) is not None else {5}
            elif not is_name(word):
                codes.add(6)
            elif not self.is_known(word):
                codes.add(7)
            elif not self.is_local(word) and self.kinds[word] != "var":
                codes.add(8)
        return codes

    def codes_of_line(self, words):
        """The codes of a line as a whole."""
        if self.within is not None:
            return self.codes_of_handler_line(words)
        codes = set()
        if words[0] == "handler" and len({*words[1:]}) < len(words[1:]):
            codes.add(9)
        kind = "lock" if words[0] == "rwlock" else words[0]
        declared = {"lock": self.locks, "sem": self.semaphores, "cond": self.lock_of, "var": self.variables, "handler": self.handlers}
        if kind in declared and len(declared[kind]) >= MOST_DECLARED[kind]:
            codes.add(11)
        if (words[0] == "lanes") != (self.lanes == 0):
            codes.add(12)
        return codes

    def codes_of_handler_line(self, words):
        codes = set()
        if words[0] == "repeat" and self.within.loops() >= MOST_LOOPS:
            codes.add(10)
        if len(self.within.lines) >= MOST_HANDLER_LINES:
            codes.add(11)
        if words[0] == "reply" and self.within.opened:
            codes.add(13)
        return codes


def has_form(form, words):
    """Whether there are as many words as are due, with the fixed ones in their places."""
    if form and form[-1] == "NAMES":
        return 1 <= len(words) <= 5
    if form and form[-1] == "EXPRESSION":
        if len(words) < len(form):
            return False
    elif len(words) != len(form):
        return False
    return all(due.isupper() or due == word for due, word in zip(form, words))


def placed(form, words):
    """Each word that isn't a fixed one with what is due in its place; an expression's words are one list."""
    for place, due in enumerate(form):
        if due == "EXPRESSION":
            yield due, words[place:]
        elif due == "NAMES":
            yield from (("NAMES", word) for word in words[place:])
        elif due.isupper():
            yield due, words[place]


def read_service(text):
    """The service that a text is."""
    service, lines = Service(), lines_of(text)
    for number, line in enumerate(lines, 1):
        service.take(number, line)
    if not service.is_whole():
        raise Refused(len(lines) + 1, "P14")
    return service
