"""What lies behind a refusal: which limit is met, what was due, which word is wrong.

The readers of tests/model are taken up to the refused line, and what is said follows from where they stand there. Where they don't
refuse that line with that code, nothing is said."""
import os
import re
import sys

sys.path.append(os.path.join(os.path.dirname(os.path.dirname(os.path.abspath(__file__))), "tests"))
from model import scenarios, services  # noqa: E402
from model.texts import MOST_BYTES, RESERVED, Refused, is_name, is_number_like, lines_of, natural, signed, words_of  # noqa: E402
from model.values import OPERATORS  # noqa: E402

KINDS = {"lock": "a plain lock", "rwlock": "a readers-writer lock", "sem": "a semaphore", "cond": "a condition", "var": "a variable", "handler": "a handler"}
# how the places of a line's form are shown, and what a name there has to be
SHOWN = {
    "NEW": "NAME", "PLAIN": "LOCK", "SHARED": "LOCK", "FIRST": "NUMBER", "SIGNED": "NUMBER", "LANES": "N", "TURNS": "K", "NAMES": "PARAMETER..", "CONDITION": "COND",
    "SEMAPHORE": "SEM", "EXPRESSION": "EXPR",
}
DUE = {
    "LOCK": "a lock", "PLAIN": "a plain lock", "SHARED": "a readers-writer lock", "CONDITION": "a condition", "SEMAPHORE": "a semaphore", "VARIABLE": "a variable",
    "LOCAL": "a local", "EXPRESSION": "a variable, parameter or local",
}
COUNTED = {"lock": "locks", "sem": "semaphores", "cond": "conditions", "var": "variables", "handler": "handlers"}
STEPS = {"n": "NODE", "r": "REQUEST", "l": "LANE", "m": "MESSAGE"}
STEP_FORMS = {first: " ".join([first, *map(STEPS.get, counts)]) for first, counts in scenarios.FORMS.items()}
STEP_FORMS.update({
    "cut": "cut NODE [LIMIT ..]", "keepfail": "keepfail NODE kept|lost", "checkpoint": "checkpoint NODE [old]", "read": "read NODE CLIENT NAME",
})


class Walk:
    """A reader that was taken up to a line, which it refuses. `declared` has the line of each name, `asked` that of each request."""

    def __init__(self, reader, lines, number):
        self.reader, self.lines, self.number = reader, lines, number
        self.is_scenario = isinstance(reader, scenarios.Scenario)
        self.service = reader.service if self.is_scenario else reader
        self.declared, self.asked, self.lanes_line = {}, {}, None
        self.words = words_of(lines[number - 1]) if number <= len(lines) else []

    def code(self):
        """The code of the line, or None where another line is refused."""
        take, service, at = self.reader.line if self.is_scenario else self.reader.take, self.service, 0
        try:
            for at, line in enumerate(self.lines[:self.number], 1):
                take(at, line)
                if len(service.kinds) > len(self.declared):
                    self.declared[next(reversed(service.kinds))] = at
                if service.lanes and self.lanes_line is None:
                    self.lanes_line = at
                if self.is_scenario and len(self.reader.requests) > len(self.asked):
                    self.asked[self.reader.requests[-1][:2]] = at
            at += 1
            if at != self.number:
                return None
            if self.is_scenario:
                self.reader.end(at)
            elif not service.is_whole():
                return "P14"
        except Refused as refused:
            return str(refused).split(" ")[-1] if at == self.number else None
        return None


def many(count, what):
    """A number of things, as 1 lane and 2 lanes."""
    return f"{count:,} {what}" + ("" if count == 1 else "s")


def either(words):
    return " or ".join(f"`{word}`" for word in words)


def bad_byte(walk):
    line = walk.lines[walk.number - 1]
    if walk.number == 1 and line.startswith(b"\xef\xbb\xbf"):
        return ["the text begins with a byte order mark; save it as ASCII or as UTF-8 without that mark"]
    at = next(at for at, byte in enumerate(line) if not (byte == 9 or 32 <= byte <= 126))
    return [f"byte {at + 1} of the line is 0x{line[at]:02X}" + (", a CR that ends no line" if line[at] == 13 else "")]


# ---- services

def forms_of(walk):
    return services.DECLARATIONS if walk.service.within is None else services.HANDLER_LINES


def shown(first, form):
    return " ".join([first, *(SHOWN.get(due, due) for due in form)])


def block_of(walk):
    """The innermost open block and its line."""
    within = walk.service.within
    if not within.opened:
        return "no block is open here"
    first, middle = within.opened[-1]
    divided = {"if": "has its `else`", "try": "has its `busy`"}.get(within.lines[first][0]) if middle is not None else None
    return f"the innermost open block is the `{within.lines[first][0]}` of line {within.numbers[first]}" + (f", which {divided} already" if divided else "")


def p2(walk):
    first, within = walk.words[0], walk.service.within
    if first in services.BLOCK_WORDS and within is not None:
        return [f"`{first}` belongs to {'an' if services.BLOCK_WORDS[first][0] == 'if' else 'a'} `{services.BLOCK_WORDS[first][0]}`; {block_of(walk)}"]
    if first in services.DECLARATIONS:
        return [f"`{first}` is a declaration, and handler {within.name} of line {within.number} has no `reply` yet"]
    if first in services.HANDLER_LINES:
        return [f"`{first}` is a line of a handler, and no handler is open here"]
    if first.startswith("%"):
        return ["this is a heading of a scenario, and `rex check` reads a service alone"]
    hints = {"while": "there is no such loop: `repeat K` runs lines K times, and `wait COND while EXPR` waits", "elif": "an `if` of its own stands in the `else`"}
    if first.startswith(("//", "--", ";", "/*")):
        return [f"`{first}`: a comment begins with `#`"]
    return [f"`{first}`: {hints.get(first, 'no line begins with this word')}"]


def p3(walk):
    first, form = walk.words[0], forms_of(walk)[walk.words[0]]
    if first == "else" and walk.words[1] == "if":
        return ["there is no `else if`: a line `else`, then an `if` of its own with its `endif`"]
    if first == "handler" and len(walk.words) > 2:
        return [f"there are {len(walk.words) - 2} parameters, and a handler has at most 4"]
    return [f"due is `{shown(first, form)}`"]


def places(walk):
    return services.placed(forms_of(walk)[walk.words[0]], walk.words[1:])


def name_fault(word):
    if word in RESERVED:
        return f"`{word}` is a word of the language"
    if not word[0].isalpha():
        return f"`{word}` doesn't begin with a letter"
    if len(word) > 32:
        return f"`{word}` has {len(word)} characters, and a name has at most 32"
    return f"`{word}` has a character that is neither a letter, a digit nor `_`"


def p4(walk):
    return [next(name_fault(word) for form, word in places(walk) if form != "EXPRESSION" and 4 in walk.service.codes_of_word(form, word))]


def number_fault(word):
    if re.fullmatch(r"-[A-Za-z]\w*", word):
        return f"`{word}` isn't a number; what is meant may be `0 - {word[1:]}`"
    return f"`{word}` isn't a number from -2^63 to 2^63 - 1, spelled without leading zeros"


def p5(walk):
    for form, word in places(walk):
        if form in services.RANGES and 5 in walk.service.codes_of_word(form, word):
            least, most = services.RANGES[form]
            return [f"`{word}` isn't a number from {least:,} to {most:,}, spelled without leading zeros"]
        for each in word[::2] if form == "EXPRESSION" else [word] if form == "SIGNED" else []:
            if is_number_like(each) and signed(each) is None or form == "SIGNED" and signed(each) is None:
                return [number_fault(each)]
    return []


def expression(walk):
    return next(word for form, word in places(walk) if form == "EXPRESSION")


def p6(walk):
    words = expression(walk)
    for at, word in enumerate(words):
        if at % 2 and word not in OPERATORS:
            return [f"`{word}` stands where an operator is due: {' '.join(OPERATORS)}"]
        if at % 2 == 0 and not is_number_like(word) and not is_name(word):
            return [f"`{word}` stands where an operand is due: a number, a variable, a parameter or a local"]
    if len(words) % 2 == 0:
        return [f"nothing follows the operator `{words[-1]}`"]
    return [f"there are {len(words) // 2 + 1} operands, and an expression has at most {services.MOST_OPERANDS}"]


def wrong_names(walk, code):
    """Each name in a line that has this code, with what is due there."""
    for form, word in places(walk):
        for each in word[::2] if form == "EXPRESSION" else [word]:
            if code in (walk.service.codes_of_expression([each]) if form == "EXPRESSION" else walk.service.codes_of_word(form, each)):
                yield each, form


def declared_below(walk, word):
    for at in range(walk.number, len(walk.lines)):
        words = words_of(walk.lines[at])
        if words and words[0][0] == "%":
            return None
        if len(words) > 1 and words[0] in KINDS and words[1] == word:
            return at + 1
    return None


def p7(walk):
    word, form = next(wrong_names(walk, 7))
    known = [*walk.declared, *(walk.service.within.locals if walk.service.within else ())]
    alike, below = sorted(name for name in known if name.lower() == word.lower()), declared_below(walk, word)
    if form == "VARIABLE":
        said = "`set` writes a declared variable, and `let` makes a local"
    elif walk.words[0] == "let" and walk.words[1] == word:
        said = "this very line makes it"
    elif below:
        said = f"it is declared below, on line {below}"
    else:
        said = f"case counts, and there is {either(alike)}" if alike else f"{DUE[form]} is due"
    return [f"`{word}` isn't there: {said}"]


def p8(walk):
    word, form = next(wrong_names(walk, 8))
    if walk.service.is_local(word):
        what = "parameter" if word in walk.service.within.parameters else "local"
        return [f"`{word}` is a {what}, and {DUE[form]} is due" + ("; `let` writes locals" if form == "VARIABLE" else "")]
    kind = walk.service.kinds[word]
    return [f"`{word}` is {KINDS[kind]}, declared on line {walk.declared[word]}, and {DUE[form]} is due" + ("; `set` writes variables" if (form, kind) == ("LOCAL", "var") else "")]


def p9(walk):
    for word in walk.words[1:]:
        if word in walk.service.kinds and (walk.words[0] == "handler" or word == walk.words[1]):
            return [f"`{word}` is {KINDS[walk.service.kinds[word]]} already, declared on line {walk.declared[word]}"]
    names = walk.words[1:]
    twice = next(word for word in names if names.count(word) > 1)
    return [f"`{twice}` is the handler's own name" if twice == names[0] else f"two parameters are called `{twice}`"]


def p10(walk):
    within = walk.service.within
    opened = [within.numbers[first] for first, _ in within.opened if within.lines[first][0] == "repeat"]
    return [f"the loops of lines {', '.join(map(str, opened))} are open, and at most {services.MOST_LOOPS} may be"]


def p11(walk):
    within, first = walk.service.within, walk.words[0]
    if within is None:
        kind = "lock" if first == "rwlock" else first
        return [f"this is {KINDS[first]} past the limit: a service has at most {services.MOST_DECLARED[kind]:,} {COUNTED[kind]}"]
    parts = []
    if len(within.lines) >= services.MOST_HANDLER_LINES:
        parts.append(f"handler {within.name} has {len(within.lines)} lines already, and at most {services.MOST_HANDLER_LINES} may be")
    if first in ("let", "clock", "random") and not walk.service.is_local(walk.words[1]) and len(within.locals) >= services.MOST_LOCALS:
        parts.append(f"`{walk.words[1]}` would be local {len(within.locals) + 1} of handler {within.name}, and at most {services.MOST_LOCALS} may be, parameters among them")
    return parts


def p12(walk):
    return [f"`lanes N` is due first, and `{walk.words[0]}` stands here" if walk.service.lanes == 0 else f"`lanes` stands on line {walk.lanes_line} already"]


def p13(walk):
    return [block_of(walk)]


def p14(walk):
    within = walk.service.within
    return [f"handler {within.name} of line {within.number} has no `reply`" if within else "the service has no handler"]


# ---- scenarios

def s3(walk):
    stage = walk.reader.stage
    due = scenarios.FOLLOWING[stage]
    after = "" if stage == "start" else f" after `{stage}`"
    if walk.number > len(walk.lines):
        return [f"the text ends, and {either(due)} is due{after}"]
    if not due:
        return ["no heading may follow `%schedule`"]
    return [f"due is {either(due)}{after}" + ("" if stage == "start" or walk.words[0][0] == "%" else f", and not `{walk.words[0]}`")]


def s4(walk):
    return [{"%nodes": "due is `%nodes N`, N being 1, 3, 5, 7 or 9", "%seed": "due is `%seed N`, N being a number below 2^32, spelled without leading zeros"}.get(
        walk.words[0], f"`{walk.words[0]}` stands alone on its line")]


def s5(walk):
    words, handlers = walk.words, walk.service.handlers
    if words[0] in handlers:
        return [f"`{words[0]}` is a handler, and CLIENT and SEQUENCE are due before it"]
    if len(words) < 3:
        return [f"due is `CLIENT SEQUENCE HANDLER ARGUMENT..`, and there {'is' if len(words) == 1 else 'are'} {many(len(words), 'word')}"]
    for word, what, most in zip(words, ("client", "sequence"), (scenarios.MOST_CLIENTS, 1000000)):
        if natural(word, 1, most) is None:
            return [f"`{word}` isn't a {what}: a number from 1 to {most:,}, spelled without leading zeros"]
    if not is_name(words[2]):
        return [f"a handler's name is due: {name_fault(words[2])}"]
    return [f"the argument {number_fault(next(word for word in words[3:] if signed(word) is None))}"]


def s6(walk):
    name, given = walk.words[2], len(walk.words) - 3
    handlers = walk.service.handlers
    if name not in handlers:
        return [f"`{name}` is no handler; there {'is' if len(handlers) == 1 else 'are'} {', '.join(handlers)}"]
    return [f"`{name}` takes {many(len(handlers[name].parameters), 'argument')}, and {given} {'is' if given == 1 else 'are'} given"]


def s7(walk):
    return [f"line {walk.asked[int(walk.words[0]), int(walk.words[1])]} has client {walk.words[0]} and sequence {walk.words[1]} already"]


def s8(walk):
    words = walk.words
    if not walk.reader.has_schedule:
        return ["`rexlive` takes no schedule lines"]
    if words[0] not in STEP_FORMS:
        return [f"no schedule line begins with `{words[0]}`"]
    if words[0] == "cut" and all(natural(word) is not None for word in words[1:]) and len(words) > 1:
        return [f"the limit {next(word for word in words[2:] if int(word) >= 2 ** 32)} is above 4,294,967,295"]
    said = f"due is `{STEP_FORMS[words[0]]}`"
    if len(words) == 4 and words[0] == "read":
        if natural(words[1]) is not None and natural(words[2], 1, scenarios.MOST_CLIENTS) is None:
            return [f"{said}, and `{words[2]}` isn't a client, 1 to {scenarios.MOST_CLIENTS}"]
        if natural(words[1]) is not None:
            return [f"{said}; {name_fault(words[3])}"]
    count = {"cut": len(words) - 1, "keepfail": 1, "checkpoint": 1, "read": 2}.get(words[0], len(scenarios.FORMS.get(words[0], "")))
    bad = next((word for word in words[1:1 + count] if natural(word) is None), None)
    return [said + (f", and `{bad}` isn't a number below 2^64, spelled without leading zeros" if bad else "")]


def s10(walk):
    words, reader = walk.words, walk.reader
    if words[0] == "deliver":
        return [f"message {words[1]} isn't there: messages count from 1"]
    there = {"n": (reader.nodes, "node"), "r": (len(reader.requests), "request"), "l": (walk.service.lanes, "lane")}
    for word, kind in zip(words[1:], scenarios.FORMS.get(words[0], "n")):
        count, what = there[kind]
        if not 1 <= int(word) <= count:
            return [f"{what} {word} isn't there: {'there is none' if count == 0 else 'there is 1' if count == 1 else f'they are 1 to {count:,}'}"]
    if words[0] == "ask":
        return [f"node {words[1]} asks itself"]
    kind = walk.service.kinds.get(words[3])
    return [f"`{words[3]}` is {KINDS[kind]}, and a variable is due" if kind else f"no variable is called `{words[3]}`"]


def s12(walk):
    return [f"there {'is' if len(walk.words) == 3 else 'are'} {many(len(walk.words) - 2, 'limit')}, and the service has {many(walk.service.lanes, 'lane')}"]


def s13(walk):
    lanes, variables = walk.service.lanes, len(walk.service.variables)
    return [f"the service has {many(lanes, 'lane')}"] if lanes > scenarios.MOST_OLD_LANES else [f"the service has {many(variables, 'variable')}"]


REASONS = {
    "P1": bad_byte, "P2": p2, "P3": p3, "P4": p4, "P5": p5, "P6": p6, "P7": p7, "P8": p8, "P9": p9, "P10": p10, "P11": p11, "P12": p12, "P13": p13, "P14": p14,
    "S2": bad_byte, "S3": s3, "S4": s4, "S5": s5, "S6": s6, "S7": s7, "S8": s8, "S9": lambda walk: [f"a schedule has at most {scenarios.MOST_LINES:,} lines"],
    "S10": s10, "S11": lambda walk: [f"there are at most {scenarios.MOST_REQUESTS:,} requests"], "S12": s12, "S13": s13,
}


def bound_of(text, handler):
    """The bound on the steps of a handler of a service that is whole."""
    from model.check import steps
    for read in (scenarios.read, services.read_service):
        try:
            service = read(text)
        except Refused:
            continue
        handler = (service if read is services.read_service else service.service).handlers[handler]
        return steps(handler, 0, len(handler.lines))
    return None


def comment_hint(walk, code):
    """Where what follows a `#` or `//` behind other words may be meant as a comment."""
    found = [word for word in walk.words[1:] if word.startswith(("#", "//"))]
    if not found or code in ("P1", "S2"):
        return []
    return [f"`{found[0]}` begins no comment here: a comment begins with `#`, on a line of its own"]


def reasons(text, number, code):
    """What lies behind a refusal of a text at a line, each a sentence without its stop."""
    if code == "W1":
        return [f"`{words_of(lines_of(text)[number - 1])[0]}` can't be recorded by lock words"]
    if len(text) > MOST_BYTES:
        return []
    lines = lines_of(text)
    for reader in (scenarios.Scenario(), scenarios.Scenario(has_schedule=False), services.Service()):
        walk = Walk(reader, lines, number)
        if walk.code() == code and code in REASONS:
            return [*REASONS[code](walk), *comment_hint(walk, code)]
    return []
