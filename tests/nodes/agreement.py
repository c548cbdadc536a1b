"""What the journals of a cluster's nodes have to have, and how it has to fit what clients sent, got and read."""
import collections

from model.states import State

from . import journals
from .spelling import events_of


class Wrong(Exception):
    """What isn't as it has to be."""


def demand(is_so, text, *parts):
    if not is_so:
        raise Wrong(text % parts)


class Operation:
    """A request of the agreed trace: what the clock was that it read, in milliseconds, and its reply; None where there is none."""

    def __init__(self, event):
        self.handler, self.arguments, self.clock, self.reply = event.handler, event.arguments, None, None

    def __str__(self):
        return "`%s` at %s is answered %s" % (" ".join(map(str, [self.handler, *self.arguments])), self.clock, self.reply)


def accepted_in(record):
    """The instance, the ballot and the value that a record says was accepted."""
    return int.from_bytes(record[9:13], "big"), int.from_bytes(record[1:9], "big"), record[17:]


def accepted_by(node, records):
    """What records say was accepted. Promises rise, and nothing is accepted below one."""
    promised, accepted = 0, []
    for record in records:
        ballot = int.from_bytes(record[1:9], "big")
        if record[0] == journals.PROMISED:
            demand(ballot > promised, "node %d promises %d after %d", node, ballot, promised)
            promised = ballot
        elif record[0] == journals.ACCEPTED:
            demand(ballot >= promised, "node %d promised %d, and accepts at %d", node, promised, ballot)
            promised = ballot
            accepted.append(accepted_in(record))
        else:
            demand(record[0] == journals.KNOWN, "node %d has a record of kind %d", node, record[0])
    return accepted


def agreed_in(cluster):
    """The agreed values, by the journals of all nodes, of which some may know fewer."""
    lists, accepted, acceptors = [], {}, collections.defaultdict(set)
    for node in range(1, cluster.nodes + 1):
        records = journals.records_at(cluster.journal(node))
        demand(records[:1] == [cluster.identity(node)], "the journal of node %d begins with %s", node, records[0].hex() if records else "nothing")
        lists.append(journals.known_in(records[1:]))
        # what a planted bug took out was written, too
        for instance, ballot, value in accepted_by(node, records[1:]) + [accepted_in(record) for record in cluster.plant.taken(cluster.journal(node))]:
            demand(accepted.setdefault((instance, ballot), value) == value, "two values are proposed as %d at ballot %d", instance, ballot)
            acceptors[instance, ballot].add(node)
    agreed = max(lists, key=len)
    for values in lists:
        demand(values == agreed[:len(values)], "nodes agree on different values: %s", [len(values) for values in lists])
    majorities = {(instance, accepted[instance, ballot]) for (instance, ballot), nodes in acceptors.items() if 2 * len(nodes) > cluster.nodes}
    for instance, value in enumerate(agreed, 1):
        demand((instance, value) in majorities, "value %d was accepted by no majority", instance)
    return agreed


def replayed(agreed, service):
    """Replays the agreed values by the rules. Answers where requests begin, where they are replied to and with what, the variables after each value, how many
    events there are, and the requests in the order in which they took the lock."""
    state, begun, replied, place, clock = State(service), {}, {}, 0, 0
    by_lane, operations = {}, []
    variables = [dict(state.variables)]
    for value in agreed:
        for event in events_of(value, service):
            place += 1
            demand(state.counts[event.lane] == event.index, "%s is no next event of lane %d", event.text(), event.lane)
            if event.kind == "begin":
                sequence, reply = state.clients.get(event.client, (0, 0))
                is_due = event.lane not in state.frames and event.sequence == sequence + 1 and reply is not None
                demand(is_due and (event.client, event.sequence) not in begun, "%s isn't due", event.text())
                begun[event.client, event.sequence] = place
                by_lane[event.lane] = Operation(event)
            else:
                due = event if event.kind == "random" else state.next_event(event.lane, event.value, None)
                demand(not isinstance(due, str) and due.text() == event.text(), "%s isn't due", event.text())
            if event.kind == "acquire":
                operations.append(by_lane[event.lane])
            if event.kind == "clock":
                demand(event.value >= clock, "%s comes after a clock of %d", event.text(), clock)
                clock = by_lane[event.lane].clock = event.value
            if event.kind == "reply":
                by_lane[event.lane].reply = event.value
                key = event.client, state.clients[event.client][0]
                demand(key not in replied, "%s comes twice", event.text())
                replied[key] = place, event.value
            state.apply(event)
        variables.append(dict(state.variables))
    return begun, replied, variables, place, operations


def check(cluster):
    """Checks what the journals have, and what clients got. Answers how many values, events and replies are agreed, how often the lock was held, and how often
    requests had each outcome that the service has."""
    agreed, history = agreed_in(cluster), cluster.history
    counts = [len(journals.known_in(journals.records_at(cluster.journal(node))[1:])) for node in range(1, cluster.nodes + 1)]
    demand(len(set(counts)) == 1, "nodes know different numbers of values: %s", counts)
    begun, replied, variables, events, operations = replayed(agreed, cluster.service)
    for _, _, client, sequence, value in history:
        told = replied.get((client, sequence), (0, None))[1]
        demand(told == value, "client %d got %s for request %d, and the trace has %s", client, value, sequence, told)
    latest, by_end, at = 0, sorted(history, key=lambda it: it[1]), 0
    for sent, _, client, sequence, _ in sorted(history):
        while by_end[at][1] < sent:
            latest = max(latest, replied[by_end[at][2:4]][0])
            at += 1
        demand(begun[client, sequence] > latest, "request %d of client %d overtook a reply that came before it was sent", sequence, client)
    holds = sorted(hold for client in cluster.clients for hold in client.holds)
    demand(all(one[1] <= other[0] for one, other in zip(holds, holds[1:])), "two clients held the lock at once")
    demand(len({hold[3] for hold in holds}) == len(holds), "two clients got the same token")
    for count, name, value in cluster.reads:
        demand(count < len(variables) and variables[count][name] == value, "%s was read as %d after %d log entries", name, value, count)
    outcomes = collections.Counter(cluster.kind.step(it) for it in operations)
    return len(agreed), events, len(replied), len(holds), outcomes
