"""Events, states of a service, and cuts of a list of events."""
from .texts import is_number_like
from .values import OPERATORS

MOST_LIVE, MOST_VALUE = 4096, 1000000000


class Event:
    """An event of a lane, with its index, its kind and what it has recorded."""

    def __init__(self, lane, index, kind, **parts):
        self.lane, self.index, self.kind = lane, index, kind
        self.lock = self.semaphore = self.client = self.condition = self.sequence = self.handler = self.value = None
        self.woken, self.arguments = [], []
        self.__dict__.update(parts)

    def text(self):
        """What a report says of it."""
        kind = self.kind
        if kind == "begin":
            return " ".join(map(str, ["begin", self.client, self.sequence, self.handler, *self.arguments]))
        if kind in ("acquire", "share", "release"):
            return "%s %s" % (kind, self.lock)
        if kind == "release shared":
            return "release %s shared" % self.lock
        if kind in ("down", "up"):
            return "%s %s" % (kind, self.semaphore)
        if kind in ("ok", "busy"):
            return "try %s %s" % (self.lock, kind)
        if kind in ("wait", "wake"):
            return "%s %s" % (kind, self.condition)
        if kind in ("signal", "broadcast"):
            woken = "to " + " ".join(map(str, sorted(self.woken))) if self.woken else "none"
            return "%s %s %s" % (kind, self.condition, woken)
        if kind == "reply":
            return "reply %d %d" % (self.client, self.value)
        return "%s %d" % (kind, self.value)

    def conflicts(self, other):
        """Whether one of the two has to come first."""
        shared = ("share", "release shared")
        if self.lane == other.lane:
            return True
        if self.lock and self.lock == other.lock and "busy" not in (self.kind, other.kind) and not (self.kind in shared and other.kind in shared):
            return True
        if self.semaphore and self.semaphore == other.semaphore:
            return True
        if self.client and self.client == other.client:
            return True
        return self.wakes(other) or other.wakes(self)

    def wakes(self, other):
        return other.kind == "wake" and other.condition == self.condition and other.lane in self.woken


class Frame:
    """What a busy lane does."""

    def __init__(self, client, sequence, handler, arguments):
        self.client, self.sequence, self.handler = client, sequence, handler
        self.locals = dict(zip(handler.parameters, arguments))
        self.place, self.turns, self.held, self.status = 0, {}, {}, "running"

    def copy(self):
        other = Frame(self.client, self.sequence, self.handler, [])
        other.locals, other.place, other.turns, other.held, other.status = dict(self.locals), self.place, dict(self.turns), dict(self.held), self.status
        return other


class State:
    """The state of a service."""

    def __init__(self, service):
        self.service = service
        self.variables, self.semaphores = dict(service.variables), dict(service.semaphores)
        self.counts = {lane: 0 for lane in range(1, service.lanes + 1)}
        self.frames, self.queues, self.clients = {}, {name: [] for name in service.lock_of}, {}

    def copy(self):
        """The same state once more; the service and its handlers are shared."""
        other = State(self.service)
        other.variables, other.semaphores, other.counts = dict(self.variables), dict(self.semaphores), dict(self.counts)
        other.frames = {lane: frame.copy() for lane, frame in self.frames.items()}
        other.queues = {name: list(lanes) for name, lanes in self.queues.items()}
        other.clients = {client: list(entry) for client, entry in self.clients.items()}
        return other

    def value(self, frame, words):
        """The value of an expression, from left to right."""
        total = self.operand(frame, words[0])
        for operator, word in zip(words[1::2], words[2::2]):
            total = OPERATORS[operator](total, self.operand(frame, word))
        return total

    def operand(self, frame, word):
        if is_number_like(word):
            return int(word)
        # a variable that is declared below the handler may have a local's name
        return frame.locals.get(word, 0) if word in frame.handler.locals else self.variables[word]

    def settle(self, frame):
        """Runs lines up to the next one that makes an event."""
        while not self.is_event(frame, frame.handler.lines[frame.place]):
            words = frame.handler.lines[frame.place]
            block = frame.handler.blocks.get(frame.place)
            frame.place = self.line(frame, words, block)

    def is_event(self, frame, words):
        if words[0] == "wait":
            return self.value(frame, words[3:]) != 0
        return words[0] in ("acquire", "share", "release", "try", "signal", "broadcast", "down", "up", "clock", "random", "reply")

    def line(self, frame, words, block):
        """Runs a line without an event, and answers the place of the next one."""
        here, word = frame.place, words[0]
        if word == "set":
            self.variables[words[1]] = self.value(frame, words[3:])
        elif word == "let":
            frame.locals[words[1]] = self.value(frame, words[3:])
        elif word == "if" and self.value(frame, words[1:]) == 0:
            return (block[2] if block[1] is None else block[1]) + 1
        elif word in ("else", "busy"):
            return block[2] + 1
        elif word == "repeat":
            frame.turns[here] = int(words[1])
        elif word == "endrepeat":
            frame.turns[block[0]] -= 1
            return block[0] + 1 if frame.turns[block[0]] > 0 else here + 1
        return here + 1

    def holders(self, lock, exclusively):
        """The lanes, rising, that hold a lock in the way of one that wants it so."""
        return [lane for lane, frame in sorted(self.frames.items()) if lock in frame.held and (exclusively or frame.held[lock] == "exclusive")]

    def next_event(self, lane, now, dice):
        """The next event of a busy lane, or the text that says why there is none."""
        frame = self.frames[lane]
        words = frame.handler.lines[frame.place]

        def event(kind, **parts):
            return Event(lane, self.counts[lane], kind, **parts)

        if words[0] == "wait":
            lock = self.service.lock_of[words[1]]
            if frame.status == "waiting":
                return "unsignalled"
            if frame.status == "running":
                return event("wait", condition=words[1], lock=lock)
            held = self.holders(lock, True)
            return "held by %d" % held[0] if held else event("wake", condition=words[1], lock=lock)
        if words[0] in ("acquire", "share"):
            held = self.holders(words[1], words[0] == "acquire")
            return "held by %d" % held[0] if held else event(words[0], lock=words[1])
        if words[0] == "try":
            return event("busy" if self.holders(words[1], True) else "ok", lock=words[1])
        if words[0] == "release":
            return event("release" if frame.held[words[1]] == "exclusive" else "release shared", lock=words[1])
        if words[0] in ("signal", "broadcast"):
            queue = self.queues[words[1]]
            return event(words[0], condition=words[1], woken=queue[:1] if words[0] == "signal" else queue[:])
        if words[0] == "down" and self.semaphores[words[1]] == 0:
            return "at zero %s" % words[1]
        if words[0] in ("down", "up"):
            return event(words[0], semaphore=words[1])
        if words[0] == "clock":
            return event("clock", value=now)
        if words[0] == "random":
            return event("random", value=dice.roll())
        return event("reply", client=frame.client, value=self.value(frame, words[1:]))

    def apply(self, event):
        """Does an event, and then the lines up to the lane's next one."""
        lane, kind = event.lane, event.kind
        self.counts[lane] += 1
        if kind == "begin":
            self.clients[event.client] = [event.sequence, None]
            self.frames[lane] = Frame(event.client, event.sequence, self.service.handlers[event.handler], event.arguments)
            self.settle(self.frames[lane])
            return
        frame = self.frames[lane]
        if kind == "reply":
            self.clients[event.client][1] = event.value
            del self.frames[lane]
            return
        if kind == "wait":
            del frame.held[event.lock]
            self.queues[event.condition].append(lane)
            frame.status = "waiting"
            return
        self.effect(frame, event, frame.handler.lines[frame.place])
        self.settle(frame)

    def effect(self, frame, event, words):
        """What an event that its lane runs on after does, and where the lane goes on."""
        kind = event.kind
        if kind in ("acquire", "ok", "wake"):
            frame.held[event.lock] = "exclusive"
        elif kind == "share":
            frame.held[event.lock] = "shared"
        elif kind in ("release", "release shared"):
            del frame.held[event.lock]
        elif kind == "down":
            self.semaphores[event.semaphore] -= 1
        elif kind == "up":
            self.semaphores[event.semaphore] = min(self.semaphores[event.semaphore] + 1, MOST_VALUE)
        elif kind in ("clock", "random"):
            frame.locals[words[1]] = event.value
        for woken in event.woken:
            self.queues[event.condition].remove(woken)
            self.frames[woken].status = "signalled"
        frame.status = "running"
        if kind == "busy":
            frame.place = frame.handler.blocks[frame.place][1] + 1
        elif kind != "wake":
            frame.place += 1


def run(start, deltas):
    """The state to which deltas run from another one."""
    state = start.copy()
    for delta in deltas:
        for event in delta:
            state.apply(event)
    return state


def below(live, limits):
    """The events of the greatest consistent cut of live events with at most so many of each lane."""
    taken, left, counts = [], [], {}
    for event in live:
        count = counts.get(event.lane, 0)
        if (limits is None or count < limits[event.lane - 1]) and not any(event.conflicts(other) for other in left):
            taken.append(event)
            counts[event.lane] = count + 1
        else:
            left.append(event)
    return taken


class Latest:
    """The events of a list so far, each lane's latest by what it has to do with."""

    def __init__(self):
        self.last = {}

    def marks(self, event):
        """What the event has to do with: for each mark whether it orders those of the same mark, and after which it comes."""
        kind, marks = event.kind, []
        if event.lock and kind != "busy":
            mine = "shared" if kind in ("share", "release shared") else "exclusive"
            marks.append((("lock", event.lock, mine), [("lock", event.lock, other) for other in ("exclusive", "shared") if "exclusive" in (mine, other)]))
        if event.semaphore:
            marks.append((("semaphore", event.semaphore), [("semaphore", event.semaphore)]))
        if event.client:
            marks.append((("client", event.client), [("client", event.client)]))
        if kind == "wake":
            marks.append((("wake", event.condition, event.lane), [("woke", event.condition, event.lane)]))
        for lane in event.woken:
            marks.append((("woke", event.condition, lane), [("wake", event.condition, lane)]))
        return marks

    def before(self, event):
        """For each other lane with an event that conflicts with this one the latest such event's place in its lane."""
        found = {}
        for _, others in self.marks(event):
            for other in others:
                for lane, index in self.last.get(other, {}).items():
                    found[lane] = max(index, found.get(lane, -1))
        found.pop(event.lane, None)
        return found

    def add(self, event):
        for mark, _ in self.marks(event):
            self.last.setdefault(mark, {})[event.lane] = event.index


def causes_of(events):
    """For each event of a piece the lane and index of the events of other lanes right before it, rising by lane: of the latest of
    each lane that conflict with it those that come before no other one. By vector clocks (Fidge, 1988; Mattern, 1989)."""
    latest, clocks, own, causes = Latest(), {}, {}, []
    for event in events:
        before = latest.before(event)
        past = [clocks[cause] for cause in before.items()] + ([own[event.lane]] if event.lane in own else [])
        causes.append(sorted((lane, index) for lane, index in before.items() if sum(clock.get(lane, -1) >= index for clock in past) == 1))
        clock = {event.lane: event.index}
        for other in past:
            for lane, index in other.items():
                clock[lane] = max(index, clock.get(lane, -1))
        clock[event.lane] = event.index
        own[event.lane] = clocks[event.lane, event.index] = clock
        latest.add(event)
    return causes
