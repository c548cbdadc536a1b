"""Lanes as threads: what they may do under one lock and by lock words, and one history of all that they may make."""
import random

from .check import check
from .scenarios import read
from .states import MOST_LIVE, Event, State, causes_of
from .texts import Refused
from .values import Dice

BALLOT, MOST_IDLE = 17, 899999


class Floor:
    """What the lanes of a scenario did so far."""

    def __init__(self, scenario):
        self.state, self.requests = State(scenario.service), list(scenario.requests)
        self.dice, self.done = Dice(scenario.seed, BALLOT), 0

    def first_open(self):
        """The first request in the order of the file that may begin."""
        for request in self.requests:
            last, reply = self.state.clients.get(request[0], [0, 0])
            if reply is not None and request[1] == last + 1:
                return request
        return None

    def next_event(self, lane, dice=None):
        """The event that a lane makes next, or None where it can't go on. Its random number is drawn from these dice or the floor's."""
        if lane in self.state.frames:
            event = self.state.next_event(lane, self.done, dice or self.dice)
            return None if isinstance(event, str) else event
        request = self.first_open()
        if request is None:
            return None
        client, sequence, handler, arguments = request
        return Event(lane, self.state.counts[lane], "begin", client=client, sequence=sequence, handler=handler, arguments=arguments)

    def take(self, event):
        """Does an event that a lane makes next, and answers how many are done with it."""
        if event.kind == "begin":
            self.requests.remove((event.client, event.sequence, event.handler, event.arguments))
        self.state.apply(event)
        self.done += 1
        return self.done


class LockWords:
    """The same of lanes that record by lock words: each has requests and dice of its own, and each event a stamp."""

    def __init__(self, scenario):
        lanes = range(1, scenario.service.lanes + 1)
        self.state = State(scenario.service)
        self.requests = {lane: [request for request in scenario.requests if (request[0] - 1) % len(lanes) + 1 == lane] for lane in lanes}
        self.dice = {lane: Dice(scenario.seed, lane) for lane in lanes}
        self.lane_stamps, self.lock_stamps = dict.fromkeys(lanes, 0), dict.fromkeys(scenario.service.locks, 0)

    def next_event(self, lane):
        """The event that a lane makes next, or None where it can't go on."""
        if lane in self.state.frames:
            event = self.state.next_event(lane, self.state.counts[lane], self.dice[lane])
            return None if isinstance(event, str) else event
        if not self.requests[lane] or self.state.counts[lane] > MOST_IDLE:
            return None
        client, sequence, handler, arguments = self.requests[lane][0]
        last, reply = self.state.clients.get(client, [0, 0])
        if reply is None or sequence != last + 1:
            return None
        return Event(lane, self.state.counts[lane], "begin", client=client, sequence=sequence, handler=handler, arguments=arguments)

    def take(self, event):
        """Does an event that a lane makes next, and answers its stamp."""
        if event.kind == "begin":
            self.requests[event.lane].pop(0)
        self.state.apply(event)
        before = self.lock_stamps[event.lock] if event.kind in ("acquire", "ok") else 0
        stamp = self.lane_stamps[event.lane] = max(self.lane_stamps[event.lane], before) + 1
        if event.kind in ("acquire", "ok", "release"):
            self.lock_stamps[event.lock] = stamp
        return stamp


def history(lanes, count):
    """Events that so many lanes may make one after the other until none can go on, in the order of what `take` answers and then of
    lanes. At each turn a lane is drawn."""
    taken, numbers = [], list(range(1, count + 1))
    while True:
        random.shuffle(numbers)
        event = next((it for it in map(lanes.next_event, numbers) if it is not None), None)
        if event is None:
            return [event for _, _, event in sorted(taken, key=lambda it: it[:2])]
        taken.append((lanes.take(event), event.lane, event))


def trace_of(pieces):
    """The lines of an agreed trace."""
    lines = []
    for number, events in enumerate(pieces, 1):
        lines.append("delta %d events %d" % (number, len(events)))
        for event, causes in zip(events, causes_of(events)):
            after = "".join(" %d.%d" % cause for cause in causes)
            lines.append("%d.%d %s%s" % (event.lane, event.index, event.text(), after and " after" + after))
    return lines


def ends_of(state, nodes, count):
    """The end lines where all nodes know so many pieces, which lead to a state."""
    values = "".join(" %s=%d" % pair for pair in [*state.variables.items(), *state.semaphores.items()])
    first = "end node 1 active promised %d known %d live 0%s" % (BALLOT, count, values)
    return [first] + ["end node %d follower promised %d known %d replayed %d%s" % (node, BALLOT, count, count, values) for node in range(2, nodes + 1)]


def live_lines(text, by_words=False):
    """What `rexlive` may write for a scenario without schedule lines, whose lanes may record by lock words."""
    scenario = read(text, has_schedule=False)
    if by_words and scenario.service.beyond_words is not None:
        raise Refused(scenario.service.beyond_words, "W1")
    check(scenario.service)
    lanes = LockWords(scenario) if by_words else Floor(scenario)
    events = history(lanes, scenario.service.lanes)
    pieces = [events[at:at + MOST_LIVE] for at in range(0, len(events), MOST_LIVE)]
    return trace_of(pieces) + ends_of(lanes.state, scenario.nodes, len(pieces))
