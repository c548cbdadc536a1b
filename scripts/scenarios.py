"""Random scenarios: services of all kinds of lines, requests that come twice or too early, and schedules of all lines that may come.

While a schedule is made tests/model runs it, so that its lines mostly have something to do: messages are lost, repeated and delayed,
leaders are stopped, keepers fail, and others take over. scripts/random-scenario writes one, and tests/compare-models runs many."""
import os
import random
import sys

sys.path.insert(0, os.path.join(os.path.dirname(os.path.dirname(os.path.abspath(__file__))), "tests"))
import model  # noqa: E402

# ---- services

DECLARATIONS = ["lock L", "lock M", "rwlock R", "sem S = 1", "sem P = 2", "cond C on L", "cond D on M", "var a on L = 0", "var b on L = -3", "var c on M = 9223372036854775807", "var d on R = 5"]
NUMBERS = ["0", "1", "2", "7", "-1", "-9223372036854775808", "9223372036854775807"]


class Bodies:
    """Random lines of handlers that pass the check: each piece holds nothing at its ends."""

    def __init__(self, dice, locals_, is_plain=False):
        self.dice, self.locals, self.is_plain = dice, locals_, is_plain

    def value(self, *variables):
        """An expression of locals, numbers and these variables."""
        words = []
        for _ in range(self.dice.choice([1, 1, 2, 2, 3, 8])):
            operand = self.dice.choice([*self.locals, *variables, *variables, self.dice.choice(NUMBERS)])
            words += [self.dice.choice(list(model.OPERATORS)), operand]
        return " ".join(words[1:])

    def write(self):
        lock, variables = self.dice.choice([("L", "ab"), ("M", "c"), ("R", "d")])
        variable = self.dice.choice(variables)
        return ["acquire " + lock, "set %s = %s" % (variable, self.value(*variables)), "let y = " + self.value(*variables), "release " + lock]

    def look(self):
        return ["share R", "let y = " + self.value("d"), "release R"]

    def both(self):
        return ["acquire L", "acquire M", "set c = " + self.value("a", "c"), "release L", "release M"]

    def take(self):
        return ["acquire L", "wait C while a <= 0", "set a = a - 1", "let y = a", "release L"]

    def give(self):
        return ["acquire L", "set a = a + 1", self.dice.choice(["signal C", "broadcast C"]), "release L"]

    def meet(self):
        return ["acquire M", "set c = c + 1", self.dice.choice(["wait D while c % 2 == 0", "broadcast D", "signal D"]), "release M"]

    def down(self):
        return ["down S", "let y = " + self.value()]

    def up(self):
        return ["up S"]

    def hold(self):
        return ["down P", *self.write(), "up P"]

    def attempt(self):
        return ["try M", "set c = c + 1", "release M", "busy", "let y = " + self.value(), "endtry"]

    def read(self):
        return [self.dice.choice(["clock t", "random t"])]

    def branch(self, depth):
        lines = ["if " + self.value(), *self.piece(depth)]
        return lines + (["else", *self.piece(depth)] if self.dice.random() < 0.5 else []) + ["endif"]

    def loop(self, depth):
        return ["repeat %d" % self.dice.randint(1, 3), *self.piece(depth), "endrepeat"]

    def piece(self, depth):
        plain = [self.write, self.write, self.both, self.attempt, self.read]
        kinds = plain if self.is_plain else [self.write, self.write, self.look, self.both, self.take, self.give, self.give, self.down, self.up, self.up, self.hold, self.meet, self.attempt, self.read]
        if depth and self.dice.random() < 0.35:
            return self.dice.choice([self.branch, self.loop])(depth - 1)
        return self.dice.choice(kinds)()


def make_service(dice, is_plain=False):
    """The lines of a service, which may be one of plain locks and variables, and how many parameters each handler has."""
    plain = ["lock R" if line == "rwlock R" else line for line in DECLARATIONS if line.split()[0] not in ("cond", "sem")]
    lines = ["lanes %d" % dice.choice([1, 2, 2, 3, 4, 16, 64])] + (plain if is_plain else DECLARATIONS)
    handlers = {}
    for name in ["first", "second", "third"][:dice.randint(1, 3)]:
        parameters = ["x", "z"][:dice.randint(0, 2)]
        bodies = Bodies(dice, parameters + ["y", "t"], is_plain)
        lines += [" ".join(["handler", name, *parameters]), "let y = %s" % (parameters or ["4"])[0], "let t = 1"]
        for _ in range(dice.randint(1, 3)):
            lines += bodies.piece(2)
        lines.append("reply " + bodies.value())
        handlers[name] = len(parameters)
    return lines, handlers


def make_requests(dice, handlers):
    requests = []
    for client in range(1, dice.randint(2, 5)):
        for sequence in range(1, dice.randint(2, 6)):
            name = dice.choice(sorted(handlers))
            requests.append(" ".join([str(client), str(sequence), name] + [dice.choice(NUMBERS) for _ in range(handlers[name])]))
    if dice.random() < 0.3:
        dice.shuffle(requests)
    return requests


# ---- schedules

WEIGHTS = {
    "lane": 60, "submit": 14, "cut": 5, "flush": 3, "deliver": 16, "again": 1.5, "beyond": 0.3, "elect": 0.7, "replay": 1, "ask": 1, "stop": 0.5, "start": 4,
    "checkpoint": 1, "drop": 0.5, "keepfail": 0.5, "read": 2,
}
TROUBLE = ("elect", "again", "ask", "stop", "keepfail")


def is_due(request, last, reply):
    """Whether a request is the next one of its client, whose last one and its reply these are."""
    return request[1] == last + 1 and reply is not None


class Schedule:
    """A schedule that is made line by line, while the model runs it."""

    def __init__(self, dice, world, lanes, unrest=None, without=()):
        self.dice, self.world, self.lanes, self.lines = dice, world, lanes, []
        # its service's states have the old version of a snapshot
        self.is_small = lanes <= 16 and len(world.service.variables) <= 256
        if unrest is None:
            unrest = dice.choice([0.2, 1, 1, 4])
        self.weights = {kind: weight * (unrest if kind in TROUBLE else 1) for kind, weight in WEIGHTS.items() if kind not in without}

    def add(self, line):
        self.lines.append(line)
        self.world.step(line.split())

    def any_node(self):
        return self.dice.randint(1, len(self.world.nodes))

    def leaders(self):
        return [node.number for node in self.world.nodes if node.role == "active"]

    def leader(self):
        """Mostly a node that leads."""
        leaders = self.leaders()
        return self.dice.choice(leaders) if leaders and self.dice.random() < 0.97 else self.any_node()

    def deliver(self):
        """A message that was not handed over yet, or a new candidate where there is none."""
        waiting = list(self.world.waiting)
        if not waiting:
            return "elect %d" % self.any_node()
        return "deliver %d" % self.dice.choice(waiting[:3] + waiting[-3:])

    def request(self):
        """Mostly one that its client may send next at a leader."""
        requests = self.world.requests
        node = self.world.nodes[self.leader() - 1]
        if node.role == "active" and self.dice.random() < 0.8:
            clients = node.state.clients
            due = [place for place, request in enumerate(requests, 1) if is_due(request, *clients.get(request[0], (0, 0)))]
            if due:
                return "submit %d %d" % (node.number, self.dice.choice(due))
        return "submit %d %d" % (node.number, self.dice.randint(1, len(requests)))

    def cut(self):
        node = self.leader()
        limits = [str(self.dice.choice([0, 1, 2, 5, 4294967295])) for _ in range(self.lanes)] if self.dice.random() < 0.4 else []
        return " ".join(["cut", str(node), *limits])

    def ask(self):
        """Mostly of a node that doesn't hold what the asking one lacks, where there is one."""
        nodes = self.world.nodes
        behind = [(node.number, other.number) for node in nodes for other in nodes if node.is_up and other.is_up and node.known() < other.offset]
        if behind and self.dice.random() < 0.7:
            return "ask %d %d" % self.dice.choice(behind)
        asking, asked = self.dice.sample(range(1, len(nodes) + 1), 2)
        return "ask %d %d" % (asking, asked)

    def lane(self):
        """Mostly a lane that has something to do."""
        node = self.world.nodes[self.leader() - 1]
        busy = [lane for lane, frame in node.state.frames.items() if frame.status != "waiting"] if node.role == "active" else []
        return "lane %d %d" % (node.number, self.dice.choice(busy) if busy and self.dice.random() < 0.8 else self.dice.randint(1, self.lanes))

    def checkpoint(self):
        """Mostly at a node that has replayed more than its last checkpoint has. The old version takes at most 16 lanes."""
        ready = [node.number for node in self.world.nodes if node.is_up and node.replayed > node.base and not node.live]
        node = self.dice.choice(ready) if ready and self.dice.random() < 0.8 else self.any_node()
        return "checkpoint %d%s" % (node, " old" if self.lanes <= 16 and self.dice.random() < 0.4 else "")

    def drop(self):
        """Mostly at a node that holds values up to its base."""
        ready = [node.number for node in self.world.nodes if node.is_up and node.base > node.offset]
        return "drop %d" % (self.dice.choice(ready) if ready and self.dice.random() < 0.8 else self.any_node())

    def read(self):
        """Mostly by a client of a request, and at a node that doesn't lead; of these mostly one that has replayed something."""
        clients = sorted({request[0] for request in self.world.requests}) or [1]
        others = [node for node in self.world.nodes if node.is_up and node.role != "active"]
        ready = [node.number for node in others if node.replayed and self.dice.random() < 0.8] or [node.number for node in others]
        node = self.dice.choice(ready) if ready and self.dice.random() < 0.8 else self.any_node()
        client = self.dice.choice(clients) if self.dice.random() < 0.9 else self.dice.choice([1, 256])
        return "read %d %d %s" % (node, client, self.dice.choice(sorted(self.world.service.variables)))

    def keepfail(self):
        node = self.leader() if self.dice.random() < 0.5 else self.any_node()
        return "keepfail %d %s" % (node, self.dice.choice(["kept", "lost"]))

    def line(self):
        kind = self.dice.choices(list(self.weights), list(self.weights.values()))[0]
        if kind in ("lane", "submit", "cut") and not self.leaders() and self.dice.random() < 0.9:
            return self.deliver()
        if kind == "deliver" and self.world.waiting:
            return self.deliver()
        if kind in ("again", "beyond"):
            count = len(self.world.sent)
            return "deliver %d" % (self.dice.randint(1, count) if kind == "again" and count else count + 1 + self.dice.randint(0, 3))
        if kind in ("lane", "deliver"):
            return self.lane()
        if kind == "start":
            down = [node.number for node in self.world.nodes if not node.is_up]
            if not down and self.dice.random() < 0.7:
                return self.lane()
            return "start %d" % (self.dice.choice(down) if down else self.any_node())
        if kind == "ask" and len(self.world.nodes) > 1:
            return self.ask()
        if kind in ("submit", "cut"):
            return self.request() if kind == "submit" else self.cut()
        if kind in ("checkpoint", "drop", "keepfail", "read"):
            return {"checkpoint": self.checkpoint, "drop": self.drop, "keepfail": self.keepfail, "read": self.read}[kind]()
        return "flush" if kind in ("ask", "flush") else "%s %d" % (kind, self.any_node())

    def fill(self, count):
        if self.dice.random() < 0.9:
            self.add("elect %d" % self.any_node())
        for _ in range(count):
            self.add(self.line())
        if self.dice.random() < 0.3:
            self.settle()

    def start_all(self):
        """Starts each node that is down, and answers how many there were."""
        down = [node.number for node in self.world.nodes if not node.is_up]
        for node in down:
            self.add("start %d" % node)
        return len(down)

    def settle(self):
        """Hands over what waits, and has each node replay."""
        for _ in range(6):
            self.add("flush")
        for node in range(1, len(self.world.nodes) + 1):
            self.add("replay %d" % node)


# ---- scenarios

def spoil(dice, line):
    """A line that is likely to be bad."""
    words = line.split()
    place = dice.randrange(len(words))
    change = dice.choice(["drop", "add", "number", "word", "byte"])
    if change == "drop":
        words.pop(place)
    elif change == "add":
        words.insert(place + 1, dice.choice(["0", "1", "6", "01"]))
    elif change == "number":
        words[place] = dice.choice(["0", "4", "6", "257", "-1", "1000001", "4294967296", "18446744073709551615", "18446744073709551616"])
    elif change == "word":
        words[0] = dice.choice(["checkpoint", "drop", "keepfail", "read", "elects", "ask", "deliver", "cut", "flush", "lane"])
    return " ".join(words) + ("\x7f" if change == "byte" else "")


def begun(nodes, seed, service, requests):
    """The first lines of a scenario up to its requests, and what they say."""
    head = ["%%nodes %d" % nodes] + (["%%seed %d" % seed] if seed else []) + ["%service", *service, "%requests"]
    return head, model.read("\n".join([*head, *requests, "%schedule", ""]).encode())


def make_scenario(seed, number):
    """The text of the scenario of this number of a seed. One in twenty is likely to have a bad line."""
    dice = random.Random("%s.%s" % (seed, number))
    nodes, start = dice.choice([1, 3, 3, 3, 5, 5, 7, 9]), dice.choice([0, 1, 4294967295])
    service, handlers = make_service(dice)
    requests = make_requests(dice, handlers)
    head, read = begun(nodes, start, service, requests)
    schedule = Schedule(dice, model.World(nodes, start, read.service, read.requests), read.service.lanes)
    schedule.fill(dice.choice([20, 60, 150, 400]))
    body = requests + ["%schedule"] + schedule.lines
    if dice.random() < 0.05:
        place = dice.randrange(len(body))
        if place != len(requests):
            body[place] = spoil(dice, body[place])
    return "\n".join(head + body) + "\n"
