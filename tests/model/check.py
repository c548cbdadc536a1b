"""The check of a service: the first line that breaks a rule, with its code C1 to C10."""

MOST_STEPS = 100000


class Unchecked(Exception):
    """A line of a handler that breaks a rule, with its code."""

    def __init__(self, handler, line, code):
        super().__init__("refused handler %s line %d %s" % (handler.name, line, code))


def check(service):
    """Raises Unchecked at the first line of a handler that breaks a rule."""
    for handler in service.handlers.values():
        Flow(service, handler).go()
        if steps(handler, 0, len(handler.lines)) > MOST_STEPS:
            raise Unchecked(handler, handler.number, "C9")


class Flow:
    """A walk over a handler's lines in order. `held` has the locks that are held, each exclusively or not; `before` what was held
    at the begin of each open block, and `ends` what the first branch of one ended with."""

    def __init__(self, service, handler):
        self.service, self.handler = service, handler
        self.held, self.before, self.ends = {}, {}, {}

    def go(self):
        for place, words in enumerate(self.handler.lines):
            code = self.code_of(place, words)
            if code:
                raise Unchecked(self.handler, self.handler.numbers[place], code)
            self.step(place, words)

    def code_of(self, place, words):
        first = words[0]
        if first in ("wait", "signal", "broadcast") and not self.has_condition(words):
            return "C8"
        if any(self.service.guards[name] not in self.held for name in self.reads(words)):
            return "C1"
        if first == "set" and not self.held.get(self.service.guards[words[1]]):
            return "C2"
        if first == "release" and words[1] not in self.held:
            return "C3"
        if first in ("acquire", "share", "try") and not self.may_take(words):
            return "C4"
        if first in ("endif", "endtry") and self.held != self.other_end(place):
            return "C5"
        if first == "endrepeat" and self.held != self.before[self.handler.blocks[place][0]]:
            return "C6"
        return {"reply": "C7", "down": "C10"}.get(first) if self.held else None

    def has_condition(self, words):
        """Whether the condition's lock is held, and at `wait` no other one."""
        lock = self.service.lock_of[words[1]]
        return self.held == {lock: True} if words[0] == "wait" else lock in self.held

    def reads(self, words):
        """The variables that the line's expression reads."""
        start = {"wait": 3, "set": 3, "let": 3, "if": 1, "reply": 1}.get(words[0], len(words))
        return [word for word in words[start::2] if word not in self.handler.locals and word in self.service.guards]

    def may_take(self, words):
        if words[0] == "try":
            return words[1] not in self.held
        order = self.service.locks
        return all(order.index(lock) < order.index(words[1]) for lock in self.held)

    def other_end(self, place):
        """What the block's other branch ends with: an absent `else` ends as it began."""
        first, middle, _ = self.handler.blocks[place]
        return self.before[first] if middle is None else self.ends[middle]

    def step(self, place, words):
        first = words[0]
        if first in ("if", "repeat", "try"):
            self.before[place] = self.held
        if first in ("acquire", "share", "try"):
            self.held = {**self.held, words[1]: first != "share"}
        elif first == "release":
            self.held = {lock: mode for lock, mode in self.held.items() if lock != words[1]}
        elif first in ("else", "busy"):
            self.ends[place], self.held = self.held, self.before[self.handler.blocks[place][0]]


def steps(handler, start, end):
    """The bound on the steps of the lines from one place up to another."""
    total, place = 0, start
    while place < end:
        words = handler.lines[place]
        if words[0] not in ("if", "try", "repeat"):
            total, place = total + 1, place + 1
            continue
        first, middle, last = handler.blocks[place]
        if words[0] == "repeat":
            total += 1 + int(words[1]) * (steps(handler, first + 1, last) + 1)
        elif middle is None:
            total += 1 + steps(handler, first + 1, last)
        else:
            total += 1 + max(steps(handler, first + 1, middle), steps(handler, middle + 1, last))
        place = last + 1
    return total
