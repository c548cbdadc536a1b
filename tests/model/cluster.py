"""Nodes, their messages, and what each schedule line does."""
from .states import MOST_LIVE, Event, State, below, run
from .values import Dice

MOST_DELTAS = 65535


class Message:
    """A message of a kind from one node to another."""

    def __init__(self, kind, sender, receiver, **parts):
        self.kind, self.sender, self.receiver = kind, sender, receiver
        self.__dict__.update(parts)


class Fallen(Exception):
    """An append has failed: the node's call ends here, and the node is down."""


class Node:
    """A node. What outlives a stop is what its keeper has, `promised`, `accepted` (the last ballot and value of each instance),
    `offset` (of how many instances it holds no value), `held` (the known values after these), `base` (of how many values the last
    checkpoint is, or how many it took over since), `saved` (the state of that), `is_old` (whether the last checkpoint is in the old
    version), and `armed`: how the keeper's next append fails."""

    def __init__(self, world, number):
        self.world, self.number, self.is_up = world, number, True
        self.promised, self.accepted, self.offset, self.held, self.armed = 0, {}, 0, [], None
        self.base, self.saved, self.is_old = 0, State(world.service), False
        self.forget()

    def forget(self):
        self.role, self.ballot, self.replayed = "follower", 0, self.base
        self.leave()

    # -- the keeper, record by record

    def append(self, write, *parts):
        """Has the keeper write a record down. Where it is armed the record is written or not, and the call ends."""
        armed, self.armed = self.armed, None
        if armed != "lost":
            write(*parts)
        if armed:
            raise Fallen()

    def write_promised(self, ballot):
        self.promised = max(self.promised, ballot)

    def write_accepted(self, ballot, instance, value):
        self.accepted[instance] = ballot, value
        self.promised = max(self.promised, ballot)

    def write_known(self, value):
        self.held.append(value)
        self.world.note(self.known(), value)

    def write_checkpoint(self, count, is_old):
        self.saved, self.base, self.is_old = self.state_at(count), count, is_old

    def write_dropped(self):
        self.held, self.offset = self.held[self.base - self.offset:], self.base
        self.forget_accepted()

    def write_transferred(self, count, state):
        self.held, self.offset, self.base, self.saved = [], count, count, state
        self.forget_accepted()

    def forget_accepted(self):
        self.accepted = {instance: last for instance, last in self.accepted.items() if instance > self.offset}

    # -- what it knows

    def known(self):
        """Of how many instances it knows the values."""
        return self.offset + len(self.held)

    def state_at(self, count):
        """The state after so many values, which runs from the one at the base."""
        return run(self.saved, self.held[self.base - self.offset:count - self.offset])

    def fall(self):
        """Goes down in the middle of a call: what it would have sent stays unsent."""
        self.forget()
        self.is_up = False
        self.tell("down")

    # -- what it says and sends

    def leave(self):
        """Drops what only a node that leads or wants to lead has."""
        self.counted, self.reports, self.open = set(), [], None
        self.queue, self.live, self.state, self.dice = [], [], None, None

    def say(self, text, *parts):
        self.world.say(text % parts)

    def tell(self, text, *parts):
        self.say("node %d " % self.number + text, *parts)

    def send(self, kind, receiver, **parts):
        self.world.outgoing.append(Message(kind, self.number, receiver, **parts))

    def send_all(self, kind, **parts):
        for other in range(1, len(self.world.nodes) + 1):
            if other != self.number:
                self.send(kind, other, **parts)

    def enter(self, role, ballot):
        """Takes a role; leaving the lead drops what is live, and goes back to the last checkpoint."""
        if self.role == "active":
            self.replayed = self.base
        self.role, self.ballot = role, ballot
        self.leave()

    def follow(self):
        was = self.role
        self.enter("follower", 0)
        if was != "follower":
            self.tell("follower")

    def is_majority(self):
        return 2 * len(self.counted) > len(self.world.nodes)

    # -- elections

    def elect(self):
        ballot = next(16 * turn + self.number for turn in range(max(1, self.promised // 16), 2 ** 32 + 1) if 16 * turn + self.number > self.promised)
        self.append(self.write_promised, ballot)
        self.enter("candidate", ballot)
        self.counted = {self.number}
        self.reports = self.proposals(1)
        self.tell("candidate ballot %d", ballot)
        self.send_all("prepare", ballot=ballot, first=self.known() + 1)
        if self.is_majority():
            self.go_on()

    def proposals(self, first):
        """What it accepted last for each instance from this one on: the instance, the ballot and the value."""
        return [(instance, *self.accepted[instance]) for instance in sorted(self.accepted) if instance >= first]

    def go_on(self):
        """Proposes what was reported for the next instance, or begins to lead."""
        instance = self.known() + 1
        best = None
        for place, ballot, value in self.reports:
            if place == instance and (best is None or ballot > best[0]):
                best = ballot, value
        if best is not None:
            self.role = "adopting"
            self.propose(instance, best[1], "adopts")
            return
        self.role, self.replayed = "active", self.known()
        self.queue, self.live, self.state, self.dice = [], [], self.state_at(self.known()), Dice(self.world.seed, self.ballot)
        self.tell("active ballot %d", self.ballot)

    def propose(self, instance, value, word):
        self.append(self.write_accepted, self.ballot, instance, value)
        self.open, self.counted = (instance, value), {self.number}
        self.tell("%s %d events %d", word, instance, len(value))
        self.send_all("accept", ballot=self.ballot, instance=instance, value=value)
        if self.is_majority():
            self.choose()

    def choose(self):
        """A majority accepted what it proposed."""
        instance, value = self.open
        self.learn(value)
        self.open = None
        self.send_all("chosen", instance=instance, value=value)
        if self.role == "adopting":
            self.go_on()
            return
        proposed = {(event.lane, event.index) for event in value}
        self.live = [event for event in self.live if (event.lane, event.index) not in proposed]
        self.replayed = self.known()
        self.release(value)

    def learn(self, value):
        self.append(self.write_known, value)
        self.tell("known %d", self.known())

    def release(self, value):
        """Releases the replies of the value that became known last, in its order."""
        for event in value:
            if event.kind == "reply":
                self.tell_reply(event.client, self.sequence_of(event), event.value)

    def tell_reply(self, client, sequence, value):
        """Releases a reply: its client has seen something of as many values as there are up to the one with its last reply, as far as
        the node can tell."""
        self.say("released %d %d %d", client, sequence, value)
        has_reply = (any(event.kind == "reply" and event.client == client for event in delta) for delta in reversed(self.held))
        last = next((self.known() - back for back, is_there in enumerate(has_reply) if is_there), self.offset)
        self.world.seen[client] = max(self.world.seen.get(client, 0), last)

    def sequence_of(self, reply):
        """The sequence of the request that a reply in the value that became known last ends: that of its client's begin before it."""
        events = (event for value in reversed(self.held[self.base - self.offset:]) for event in reversed(value))
        while next(events) is not reply:
            pass
        begins = (event.sequence for event in events if event.kind == "begin" and event.client == reply.client)
        return next(begins, None) or self.saved.clients[reply.client][0]

    # -- messages

    def receive(self, message):
        getattr(self, "on_" + message.kind)(message)

    def on_prepare(self, message):
        if message.ballot < self.promised:
            self.send("nack", message.sender, ballot=message.ballot, promised=self.promised)
            return
        if message.first <= self.offset:
            self.send_saved(message.sender)
            return
        if message.ballot > self.promised:
            self.append(self.write_promised, message.ballot)
            self.tell("promised %d", message.ballot)
            self.follow()
        self.send("promise", message.sender, ballot=message.ballot, proposals=self.proposals(message.first))

    def on_promise(self, message):
        if message.ballot != self.ballot:
            self.say("ignored ballot %d %d", message.ballot, self.ballot)
        elif self.role != "candidate":
            self.say("ignored late")
        elif message.sender in self.counted:
            self.say("ignored again %d", message.sender)
        else:
            self.counted.add(message.sender)
            self.reports = self.reports + message.proposals
            if self.is_majority():
                self.go_on()
            else:
                self.say("have %d", len(self.counted))

    def on_accept(self, message):
        if message.ballot < self.promised:
            self.send("nack", message.sender, ballot=message.ballot, promised=self.promised)
            return
        if message.instance <= self.offset:
            self.send_saved(message.sender)
            return
        before = self.accepted.get(message.instance)
        if before is None or before[0] != message.ballot:
            self.append(self.write_accepted, message.ballot, message.instance, message.value)
            self.tell("accepted %d %d", message.ballot, message.instance)
            self.follow()
        self.send("accepted", message.sender, ballot=message.ballot, instance=message.instance)

    def on_accepted(self, message):
        wanted = self.open[0] if self.open else 0
        if message.ballot != self.ballot:
            self.say("ignored ballot %d %d", message.ballot, self.ballot)
        elif message.instance != wanted:
            self.say("ignored instance %d %d", message.instance, wanted)
        elif message.sender in self.counted:
            self.say("ignored again %d", message.sender)
        else:
            self.counted.add(message.sender)
            if self.is_majority():
                self.choose()
            else:
                self.say("have %d", len(self.counted))

    def on_chosen(self, message):
        if message.instance != self.known() + 1:
            self.say("ignored instance %d %d", message.instance, self.known() + 1)
            return
        self.learn(message.value)
        self.follow()

    def on_nack(self, message):
        if self.ballot != 0 and message.promised > self.ballot:
            self.follow()
        else:
            self.say("ignored ballot %d %d", message.promised, self.ballot)

    def on_ask(self, message):
        if message.first <= self.offset:
            self.send_saved(message.sender)
            return
        asked = range(message.first, min(self.known(), message.first + 63) + 1)
        if not asked:
            self.say("nothing")
        for instance in asked:
            self.send("chosen", message.sender, instance=instance, value=self.held[instance - self.offset - 1])

    def send_saved(self, receiver):
        """Answers who asks for values that it doesn't hold any more."""
        self.send("snapshot", receiver, count=self.base, state=self.saved)

    def on_snapshot(self, message):
        if message.count <= self.known():
            self.say("ignored instance %d %d", message.count, self.known() + 1)
            return
        self.append(self.write_transferred, message.count, message.state)
        self.tell("transferred %d", message.count)
        self.replayed = message.count
        self.follow()

    # -- what the schedule asks for

    def submit(self, request):
        client, sequence, handler, arguments = request
        if self.role != "active":
            return self.say("not active %s", self.role)
        begun, reply = self.state.clients.get(client, (0, None))
        last = max([begun] + [waiting[1] for waiting in self.queue if waiting[0] == client])
        is_replied = last == begun and reply is not None
        expected = last + 1 if last == 0 or is_replied else last
        if sequence < last:
            return self.say("old %d", last)
        if sequence > expected:
            return self.say("gap %d", expected)
        if sequence == last + 1:
            self.queue.append(request)
            return self.say("queued")
        is_live = any(event.kind == "reply" and event.client == client for event in self.live)
        if is_replied and not is_live:
            return self.tell_reply(client, sequence, reply)
        return self.say("waiting")

    def lane(self, lane):
        if self.role != "active":
            return self.say("not active %s", self.role)
        turn = self.turn(lane)
        if isinstance(turn, str):
            return self.say("lane %d %s", lane, turn)
        self.state.apply(turn)
        self.live.append(turn)
        return self.say("lane %d %d %s", lane, turn.index, turn.text())

    def turn(self, lane):
        if len(self.live) >= MOST_LIVE:
            return "full"
        if lane in self.state.frames:
            return self.state.next_event(lane, self.world.done, self.dice)
        if not self.queue:
            return "idle"
        client, sequence, handler, arguments = self.queue.pop(0)
        return Event(lane, self.state.counts[lane], "begin", client=client, sequence=sequence, handler=handler, arguments=arguments)

    def cut(self, limits):
        if self.role != "active":
            return self.say("not active %s", self.role)
        if self.open:
            return self.say("open %d", self.open[0])
        if self.known() >= MOST_DELTAS:
            return self.say("ended")
        value = below(self.live, limits)
        if not value:
            return self.say("nothing")
        return self.propose(self.known() + 1, value, "proposes")

    def replay(self):
        if self.role == "active" or self.replayed == self.known():
            return self.tell("up to date")
        self.replayed = self.known()
        return self.tell("replayed %d", self.replayed)

    def checkpoint(self, is_old):
        if self.replayed == self.base:
            return self.say("nothing")
        if self.role == "active" and self.live:
            return self.say("live %d", len(self.live))
        self.append(self.write_checkpoint, self.replayed, is_old)
        return self.tell("checkpoint %d", self.base)

    def drop(self):
        if self.base == self.offset:
            return self.say("nothing")
        self.append(self.write_dropped)
        return self.tell("dropped %d", self.offset)

    def read(self, client, name):
        if self.role == "active":
            return self.say("primary")
        seen = self.world.seen.get(client, 0)
        if self.replayed < seen:
            return self.say("behind %d %d", self.replayed, seen)
        self.world.seen[client] = self.replayed
        return self.say("read %d %s %d at %d", client, name, self.state_at(self.replayed).variables[name], self.replayed)

    def keepfail(self, how):
        self.armed = how
        self.tell("keepfail %s", how)

    def stop(self):
        self.forget()
        self.is_up = False
        self.tell("stopped")

    def start(self):
        if self.is_up:
            return self.tell("is up")
        self.is_up = True
        self.forget()
        self.tell("started promised %d known %d replayed %d", self.promised, self.known(), self.replayed)
        return self.migrate() if self.is_old else None

    def migrate(self):
        self.append(self.write_checkpoint, self.base, False)
        return self.tell("migrated %d", self.base)

    def end(self):
        """The line of it after the schedule."""
        if not self.is_up:
            return "end node %d down" % self.number
        if self.role == "active":
            state, count = self.state, "live %d" % len(self.live)
        else:
            state, count = self.state_at(self.replayed), "replayed %d" % self.replayed
        values = "".join(" %s=%d" % pair for pair in [*state.variables.items(), *state.semaphores.items()])
        return "end node %d %s promised %d known %d %s%s" % (self.number, self.role, self.promised, self.known(), count, values)


# ---- the cluster

class World:
    """All nodes, the messages that they sent, those of them that wait to be handed over, by number, the report so far, the values that
    nodes wrote down as known, by instance, and of how many of them each client has seen something."""

    def __init__(self, nodes, seed, service, requests):
        self.seed, self.service, self.requests = seed, service, requests
        self.done, self.report, self.sent, self.waiting, self.outgoing, self.agreed, self.seen = 0, [], [], {}, [], [], {}
        self.nodes = [Node(self, number) for number in range(1, nodes + 1)]

    def say(self, text):
        self.report.append("%d %s" % (self.done + 1, text))

    def note(self, instance, value):
        """Notes what a node wrote down as the value of an instance; the first of them are the agreed ones."""
        if instance == len(self.agreed) + 1:
            self.agreed.append(value)

    def step(self, words):
        """Does a schedule line."""
        if words[0] == "flush":
            self.flush()
        elif words[0] == "deliver":
            number = int(words[1])
            self.hand_over(number) if number <= len(self.sent) else self.say("no message %d" % number)
        else:
            self.at_node(self.nodes[int(words[1]) - 1], words)
        for message in self.outgoing:
            self.sent.append(message)
            self.waiting[len(self.sent)] = message
            self.say("sent %d %s %d %d" % (len(self.sent), message.kind, message.sender, message.receiver))
        self.outgoing = []
        self.done += 1

    def call(self, node, method, *parts):
        """Calls a node. Where its keeper fails in the call, nothing that the call was to send is sent."""
        sent_before = len(self.outgoing)
        try:
            method(*parts)
        except Fallen:
            del self.outgoing[sent_before:]
            node.fall()

    def at_node(self, node, words):
        self.call(node, self.do, node, words)

    def do(self, node, words):
        word = words[0]
        if word == "keepfail":
            node.keepfail(words[2])
        elif not node.is_up and word != "start":
            node.tell("is down")
        elif word == "submit":
            node.submit(self.requests[int(words[2]) - 1])
        elif word == "lane":
            node.lane(int(words[2]))
        elif word == "cut":
            node.cut([int(limit) for limit in words[2:]] or None)
        elif word == "ask":
            node.send("ask", int(words[2]), first=node.known() + 1)
        elif word == "checkpoint":
            node.checkpoint(len(words) == 3)
        elif word == "read":
            node.read(int(words[2]), words[3])
        else:
            getattr(node, word)()

    def hand_over(self, number):
        message = self.sent[number - 1]
        self.waiting.pop(number, None)
        self.say("message %d %s %d %d" % (number, message.kind, message.sender, message.receiver))
        node = self.nodes[message.receiver - 1]
        self.call(node, node.receive, message) if node.is_up else node.tell("is down")

    def flush(self):
        waiting = list(self.waiting)
        if not waiting:
            self.say("nothing")
        for number in waiting:
            self.hand_over(number)
