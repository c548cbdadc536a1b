"""A process' twin: the node of tests/model that does the same, and says what the process has to answer."""
import struct

from model.cluster import Node
from model.values import Dice

from .spelling import ROLES, Value, delta_bytes, framed, message_bytes


class Room:
    """What the model's node asks of its world. Here each node is alone."""

    def __init__(self, nodes, seed, service):
        self.nodes, self.seed, self.service = range(nodes), seed, service
        self.done, self.report, self.outgoing, self.seen, self.raw = 0, [], [], {}, []

    def say(self, text):
        self.report.append(text)

    def note(self, instance, value):
        pass


class Twin(Node):
    """The model's node of a process. Its clock is the greatest that it was handed, or that what it knows shows; what it knows it replays."""

    def __init__(self, room, number):
        self.memory, self.appends, self.clock = None, 0, 0
        # for who tells whether the last records before a stop are there
        self.came_with = None
        super().__init__(room, number)

    def copy(self):
        other = self.restarted()
        other.role, other.ballot, other.clock = self.role, self.ballot, self.clock
        other.counted, other.reports, other.open = set(self.counted), list(self.reports), self.open
        other.queue, other.live = list(self.queue), list(self.live)
        other.state = self.state.copy() if self.state else None
        if self.dice:
            other.dice = Dice(0, 0)
            other.dice.state, other.dice.step = self.dice.state, self.dice.step
        return other

    def restarted(self):
        """The twin of the process that comes up with the same records."""
        other = Twin(self.world, self.number)
        other.promised, other.accepted, other.held = self.promised, dict(self.accepted), list(self.held)
        other.memory = self.memory
        other.replayed, other.clock = other.known(), clock_of(other.held, 0)
        return other

    def durable(self):
        """What of it outlives a stop."""
        accepted = tuple((instance, ballot, id(value)) for instance, (ballot, value) in sorted(self.accepted.items()))
        return self.promised, accepted, self.known()

    # -- what the model's node does otherwise

    def append(self, write, *parts):
        """Writes a record down, which waits for those of the same piece."""
        self.appends += 1
        write(*parts)

    def state_at(self, count):
        """Kept from call to call: what is known only grows."""
        at, state = self.memory if self.memory and self.memory[0] <= count else (0, self.saved)
        if at < count or not self.memory:
            state = state.copy()
            for value in self.held[at:count]:
                for event in value:
                    state.apply(event)
            self.memory = count, state
        return state.copy()

    def propose(self, instance, value, word):
        if not isinstance(value, Value):
            bases = dict(self.state.counts)
            for event in self.live:
                bases[event.lane] -= 1
            value = Value(value, delta_bytes(value, self.world.service, [bases[lane] for lane in sorted(bases)]))
        super().propose(instance, value, word)

    def tell_reply(self, client, sequence, value):
        self.say("released %d %d %d", client, sequence, value)

    # -- what frames ask for

    def raise_clock(self, clock):
        self.clock = self.world.done = max(self.clock, clock)

    def take_turn(self, lane, clock):
        self.raise_clock(clock)
        self.lane(lane)

    def run(self, clock):
        """All lanes in turn until none goes on."""
        self.raise_clock(clock)
        if self.role != "active":
            return self.say("not active %s", self.role)
        made, went = 0, True
        while went:
            went = False
            for lane in range(1, self.world.service.lanes + 1):
                turn = self.turn(lane)
                if not isinstance(turn, str):
                    self.state.apply(turn)
                    self.live.append(turn)
                    made, went = made + 1, True
        self.world.raw.append(framed(b"r", struct.pack(">I", made)))

    def hear_unfit(self, instance):
        """Hears of a value that doesn't fit as the next one."""
        if instance == self.known() + 1:
            self.world.raw.append(framed(b"v"))
        else:
            self.say("ignored instance %d %d", instance, self.known() + 1)

    def foretell(self, message):
        """Tells which replies hearing a message would release: of an acceptance those that a copy releases that hears it."""
        if message.kind == "accepted":
            room = self.world
            self.copy().receive(message)
            room.report, room.outgoing = [text for text in room.report if text.startswith("released ")], []

    def ask_other(self, to):
        self.send("ask", to, first=self.known() + 1)

    def read_at(self, client, seen, name):
        self.world.seen = {client: seen}
        self.read(client, name)

    def nothing(self):
        """What is asked for isn't there."""
        self.world.raw.append(framed(b"f"))

    def status(self):
        return framed(b"z", struct.pack(">BQII", ROLES[self.role], self.promised, self.known(), len(self.live)))

    def answers(self, calls):
        """What the calls of a piece, which is what one read gives, are answered with: the bytes, the messages with theirs, and what is reported. What they
        write down waits. It is kept together before any of this is told; where that fails nothing is told, and all of it may be there or nothing."""
        told, sends, reports = [], [], []
        self.appends = 0
        for call in calls:
            bytes_, sent, report = self.answer(call)
            told += [bytes_, self.status()]
            sends += sent
            reports += report
        return b"".join(told), sends, reports

    def answer(self, call):
        """The same of one call, without the status."""
        room, known = self.world, self.known()
        room.report, room.outgoing, room.raw = [], [], []
        call(self)
        self.clock = clock_of(self.held[known:], self.clock)
        if self.role != "active" and self.replayed < self.known():
            self.replay()
        sends = [(message, message_bytes(message)) for message in room.outgoing]
        reports = [framed(b"e", text.encode()) for text in room.report]
        told = [framed(b"t", struct.pack(">B", message.receiver) + bytes_) for message, bytes_ in sends]
        return b"".join([*reports, *room.raw, *told]), sends, room.report


def clock_of(values, clock):
    """The greatest of a clock and those that events of values show."""
    return max([clock, *(event.value for value in values for event in value if event.kind == "clock")])


def different(twins):
    """Those of twins that differ in what is durable."""
    return list({twin.durable(): twin for twin in twins}.values())
