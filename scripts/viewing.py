"""What can be seen of a run: tests/model runs the scenario once more, and after each step of the report it is noted what each node is.

A step is a delivery, or any other line of the schedule. `data_of` answers all that the page of scripts/view-report shows, as lists and
numbers that become JSON. Numbers of 64 bits are texts there, since JavaScript's own have 53 bits."""
import os
import sys

sys.path.insert(0, os.path.join(os.path.dirname(os.path.dirname(os.path.abspath(__file__))), "tests"))
import model  # noqa: E402
from model.check import Unchecked, check  # noqa: E402
from model.states import causes_of  # noqa: E402
from model.texts import Refused, is_skipped, lines_of, words_of  # noqa: E402
from reports import Bad  # noqa: E402

KINDS = ["prepare", "promise", "accept", "accepted", "chosen", "nack", "ask", "snapshot"]
# so many of the values that a promise reports are named
MOST_NAMED = 3


class NoDice:
    """In place of a leader's random numbers where it is only asked whether a lane can go on."""

    def roll(self):
        return 0


class Watched(model.World):
    """A world that notes after each step what changed. `changes` has for each step names and their new values, None where there is
    none any more, first of all those at the start; `sent_by` how many messages were sent by its end."""

    def __init__(self, nodes, seed, service, requests):
        super().__init__(nodes, seed, service, requests)
        self.places = {request[:2]: place for place, request in enumerate(requests, 1)}
        self.looks, self.replayed_states, self.saw = [{} for _ in self.nodes], {}, {}
        self.changes, self.sent_by, self.events = [[]], [0], []
        for node in self.nodes:
            self.note_node(node)

    def step(self, words):
        before = len(self.sent_by)
        super().step(words)
        if len(self.sent_by) == before:
            self.end_step(None if words[0] in ("flush", "deliver") else self.nodes[int(words[1]) - 1])

    def hand_over(self, number):
        super().hand_over(number)
        self.end_step(self.nodes[self.sent[number - 1].receiver - 1])

    def end_step(self, node):
        """A step is over, in which just this node may have changed."""
        self.changes.append([])
        self.sent_by.append(len(self.sent) + len(self.outgoing))
        if node is None:
            return
        if node.live and not hasattr(node.live[-1], "place"):
            event = node.live[-1]
            event.place = len(self.events)
            self.events.append((len(self.sent_by) - 1, node.number, event))
        self.note_node(node)
        for client, count in self.seen.items() if self.seen != self.saw else ():
            if self.saw.get(client) != count:
                self.changes[-1].append(("client %d seen" % client, count))
        self.saw = dict(self.seen)

    def note_node(self, node):
        before, now = self.looks[node.number - 1], self.look(node)
        self.changes[-1] += [("%d %s" % (node.number, name), now.get(name)) for name in {**before, **now} if before.get(name) != now.get(name)]
        self.looks[node.number - 1] = now

    def look(self, node):
        """What a node is: what its keeper has, and where it is up its role, and what goes with that."""
        found = {"role": node.role if node.is_up else "down", "promised": node.promised, "known": node.known(), "base": node.base, "offset": node.offset}
        accepted = node.accepted.get(node.known() + 1)
        found.update(fails=node.armed, old=node.is_old or None, accepted=accepted and [accepted[0], len(accepted[1])])
        if not node.is_up:
            return found
        found.update(replayed=node.replayed, ballot=node.ballot or None, counted=sorted(node.counted) or None)
        if node.open:
            found["open"] = [node.open[0], len(node.open[1])]
        if node.role == "active":
            found.update(live=len(node.live), queue=[self.places[request[:2]] for request in node.queue] or None)
        found.update(self.look_inside(node.state if node.role == "active" else self.replayed_state(node)))
        return found

    def replayed_state(self, node):
        """The state of a node that doesn't lead: the one after what it has replayed."""
        count, state = self.replayed_states.get(node.number, (None, None))
        if count is not None and count < node.replayed:
            for event in (event for delta in self.agreed[count:node.replayed] for event in delta):
                state.apply(event)
        elif count != node.replayed:
            state = node.state_at(node.replayed)
        self.replayed_states[node.number] = node.replayed, state
        return state

    def look_inside(self, state):
        """The values of variables and semaphores, and what busy lanes do."""
        found = {"= " + name: str(value) for name, value in [*state.variables.items(), *state.semaphores.items()]}
        for lane, frame in state.frames.items():
            hindered = state.next_event(lane, self.done, NoDice())
            found["lane %d" % lane] = {
                "request": self.places[frame.client, frame.sequence], "line": frame.handler.numbers[frame.place],
                "held": [name if how == "exclusive" else name + " shared" for name, how in frame.held.items()],
                "hindered": hindered if isinstance(hindered, str) else None, "locals": {name: str(value) for name, value in frame.locals.items()},
            }
        return found


def watched(text):
    """The scenario that a text is, and the world after its run."""
    try:
        scenario = model.read(text)
        check(scenario.service)
    except (Refused, Unchecked) as why:
        raise Bad("the model says of this scenario: %s" % why) from why
    world = Watched(scenario.nodes, scenario.seed, scenario.service, scenario.requests)
    for words in scenario.schedule:
        world.step(words)
    return scenario, world


def compare(report, world):
    """Whether a report is the one that the model writes."""
    wanted = world.report + [node.end() for node in world.nodes]
    for number, (mine, line) in enumerate(zip(wanted, report.lines), 1):
        if mine != line:
            raise Bad("line %d is %r, and the model has %r there" % (number, line[:60], mine[:60]))
    if len(wanted) != len(report.lines) or len(world.sent_by) != len(report.steps) + 1:
        raise Bad("the report has %d lines in %d steps, and the model %d in %d" % (len(report.lines), len(report.steps), len(wanted), len(world.sent_by) - 1))


def carried(message):
    """What a message carries."""
    kind = message.kind
    if kind == "prepare":
        return "ballot %d, from delta %d on" % (message.ballot, message.first)
    if kind == "promise":
        named = ["delta %d of ballot %d (%d events)" % (instance, ballot, len(value)) for instance, ballot, value in message.proposals[:MOST_NAMED]]
        more = len(message.proposals) - len(named)
        return "ballot %d, %s" % (message.ballot, "has accepted " + ", ".join(named + (["%d more" % more] if more else [])) if named else "nothing accepted")
    if kind == "accept":
        return "ballot %d, delta %d (%d events)" % (message.ballot, message.instance, len(message.value))
    if kind == "accepted":
        return "ballot %d, delta %d" % (message.ballot, message.instance)
    if kind == "chosen":
        return "delta %d (%d events)" % (message.instance, len(message.value))
    if kind == "nack":
        return "ballot %d is refused: promised %d" % (message.ballot, message.promised)
    return "from delta %d on" % message.first if kind == "ask" else "the state after delta %d" % message.count


class Table:
    """Different items, each with a number."""

    def __init__(self):
        self.items, self.numbers = [], {}

    def number(self, item):
        """The number of an item, which has a text that tells it from all others."""
        key = repr(item)
        if key not in self.numbers:
            self.numbers[key] = len(self.items)
            self.items.append(item)
        return self.numbers[key]


def places_in(lines):
    """Where in a scenario's lines, counted from 1, its service, its requests and the lines of its schedule are."""
    found, section = {"%service": [], "%requests": [], "%schedule": []}, None
    for number, line in enumerate(lines, 1):
        words = words_of(line)
        if words and words[0][0] == "%":
            section = words[0]
        elif section == "%service" or (section in found and not is_skipped(words)):
            found[section].append(number)
    return found.values()


def note_clients(report, schedule, world):
    """Notes of each client the last request that it handed in, at which node, and the last reply that was released to it, with the steps."""
    for place, step in enumerate(report.steps, 1):
        words, changes = schedule[step.line - 1], world.changes[place]
        if words[0] == "submit":
            changes.append(("client %d asked" % world.requests[int(words[2]) - 1][0], [int(words[2]), int(words[1]), place]))
        changes += [("client %s released" % it.parts["c"], [int(it.parts["s"]), it.parts["v"], place]) for it in step.marks if it.kind == "released"]


def trace_of(world):
    """The agreed deltas: lists of events, each its number and those of its causes."""
    deltas = []
    for delta in world.agreed:
        named = {(it.lane, it.index): it.place for it in delta}
        deltas.append([[it.place, *(named[cause] for cause in causes)] for it, causes in zip(delta, causes_of(delta))])
    return deltas


def messages_of(report, world, details):
    """The messages: kind, sender, receiver, the step that sent it, what it carries, and the steps in which it was handed over."""
    sent_in = [place for place in range(1, len(world.sent_by)) for _ in range(world.sent_by[place - 1], world.sent_by[place])]
    order = {id(step): place for place, step in enumerate(report.steps, 1)}
    return [
        [KINDS.index(it.kind), it.sender, it.receiver, place, details.number(carried(mine)), *(order[id(step)] for step in it.handed_over)]
        for it, mine, place in zip(report.messages, world.sent, sent_in)
    ]


def data_of(report, schedule, text):
    """All that the page shows of a report, its schedule and its scenario's text."""
    scenario, world = watched(text)
    compare(report, world)
    note_clients(report, schedule, world)
    lines = lines_of(text)
    service, requests, places = places_in(lines)
    names, values, marks, details, texts = Table(), Table(), Table(), Table(), Table()
    values.number(None)
    return {
        "nodes": scenario.nodes, "lanes": scenario.service.lanes, "stores": [*scenario.service.variables, *scenario.service.semaphores],
        "scenario": [line.decode("ascii") for line in lines], "service": service, "requests": requests, "schedule": places, "report": report.lines,
        "steps": [[it.line, it.node or 0, it.message.number if it.message else 0, *(marks.number([mark.kind, mark.label, mark.text]) for mark in it.marks)] for it in report.steps],
        "messages": messages_of(report, world, details),
        "changes": [[number for name, value in some for number in (names.number(name), values.number(value))] for some in world.changes],
        "events": [[place, node, it.lane, it.index, texts.number(it.text())] for place, node, it in world.events], "trace": trace_of(world),
        "kinds": KINDS, "marks": marks.items, "details": details.items, "names": names.items, "values": values.items, "texts": texts.items,
    }
