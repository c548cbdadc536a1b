"""What schedules of processes draw: plain data, of which any part can be done again."""
import random
import struct

from model.services import read_service
from scenarios import NUMBERS, make_service

from .processes import FAILS, KILLED_AFTER, KILLED_BEFORE, PIPE, Process
from .spelling import MESSAGES, chosen_bytes, framed, identity_bytes
from .twins import Room

WEIGHTS = {
    "turn": 40, "run": 8, "submit": 16, "cut": 7, "deliver": 34, "again": 2, "bad": 1.5, "unfit": 0.7, "lose": 1.5, "elect": 0.8, "ask": 1.2, "read": 3,
    "foretell": 4, "status": 1, "kill": 0.5, "die": 0.8, "fail": 0.5, "blackout": 0.1, "start": 6, "start badly": 0.3, "start wrongly": 0.3, "start twice": 0.1,
}
TROUBLE = ("elect", "again", "lose", "kill", "die", "fail", "blackout", "start badly")
FOR_LEADERS = ("turn", "run", "submit", "cut")
BESIDE = ("deliver", "deliver", "deliver", "deliver", "submit", "run", "cut", "again", "elect", "ask", "read", "foretell", "status", "bad")  # in a piece with others
WRONG = ("id", "nodes", "seed", "cluster", "service")


def long_service(dice):
    """A service whose requests have many events, so that values are long and as many events are live as may be."""
    body = ["acquire L", "set a = a + x", "release L", "clock t"]
    lines = ["lanes %d" % dice.choice([1, 2, 5]), "lock L", "var a on L = 0"]
    lines += ["handler long x", "let t = 0", "repeat %d" % dice.choice([100, 400, 1000]), *body, "endrepeat", "reply t"]
    lines += ["handler short x", "let t = 0", *body, "reply t"]
    return lines, {"long": 1, "short": 1}


class Drawing:
    """The processes of a cluster, what was sent among them, and what may be asked of them next."""

    def __init__(self, options, number, folder, counts, plant):
        self.options, self.folder, self.counts, self.plant = options, folder, counts, plant
        self.library, self.steps, self.log = options.library, 0, []
        self.draws = "%s.%s" % (options.seed, number)
        self.dice = dice = random.Random(self.draws)
        self.nodes, self.seed = options.nodes or dice.choice([1, 3, 3, 3, 5, 5]), dice.choice([0, 1, 4294967295])
        self.cluster = dice.choice(["", "", "lab", "x" * 255])
        lines, self.handlers = long_service(dice) if dice.random() < 0.03 else make_service(dice, dice.random() < 0.6)
        self.text = "\n".join([*lines, ""]).encode()
        self.texts = {"service": self.text, "another": self.text + b"# another\n"}
        for name, text in self.texts.items():
            with open("%s/%s" % (folder, name), "wb") as file:
                file.write(text)
        self.service = read_service(self.text)
        self.room = Room(self.nodes, self.seed, self.service)
        self.clients = {client: 1 for client in range(1, dice.randint(3, 12))}
        # all messages by their bytes, those that were sent in their order, and those that wait
        self.messages, self.requests, self.sent, self.waiting = {}, {}, [], []
        unrest = dice.choice([0.1, 0.3, 1, 1, 3])
        weights = {kind: weight * (unrest if kind in TROUBLE else 1) for kind, weight in WEIGHTS.items()}
        if options.fitting:
            del weights["unfit"]
        if options.raw:
            weights["raw"] = 0.4 * unrest
        self.kinds = list(weights), list(weights.values())
        self.all = [Process(self, number) for number in range(1, self.nodes + 1)]

    def parts_of(self, number, other):
        """What tells a node's journal from others, maybe with something that is another one's."""
        return {"id": number, "nodes": self.nodes, "seed": self.seed, "cluster": self.cluster, "service": "service", **other}

    def words_of(self, number, path, **other):
        """The command line of a node."""
        parts = self.parts_of(number, other)
        words = [self.options.node, str(parts["id"]), str(parts["nodes"]), "%s/%s" % (self.folder, parts["service"]), path]
        return [*words, "--seed", str(parts["seed"]), "--cluster=" + parts["cluster"]]

    def identity_of(self, number, **other):
        """The first record of a node's journal."""
        parts = self.parts_of(number, other)
        return identity_bytes(parts["id"], parts["nodes"], parts["seed"], parts["cluster"], self.texts[parts["service"]])

    # -- which

    def up(self):
        return [it for it in self.all if it.running]

    def any_up(self):
        up = self.up()
        return self.dice.choice(up) if up else None

    def leaders(self):
        return [it for it in self.up() if it.twin.role == "active"]

    def leader(self):
        """Mostly a process that leads."""
        leaders = self.leaders()
        return self.dice.choice(leaders) if leaders and self.dice.random() < 0.97 else self.any_up()

    def request(self, client, sequence):
        """The request of a client and a sequence: always the same."""
        if (client, sequence) not in self.requests:
            name = self.dice.choice(sorted(self.handlers))
            self.requests[client, sequence] = name, [int(self.dice.choice(NUMBERS)) for _ in range(self.handlers[name])]
        name, arguments = self.requests[client, sequence]
        return client, sequence, name, arguments

    # -- what is drawn

    def drawn_piece(self, drawn):
        """What a process is asked at once: this, and nothing else or something."""
        it, piece, size = self.all[drawn[1] - 1], [drawn], len(self.made(*drawn)[1])
        for _ in range(0 if self.plant.is_one_by_one else self.dice.choice([0, 0, 1, 2, 5])):
            other = self.drawn(self.dice.choice(BESIDE), it)
            more = len(self.made(*other)[1]) if other else PIPE
            if size + more < PIPE:
                piece.insert(self.dice.randrange(len(piece) + 1), other)
                size += more
        return piece

    def drawn(self, kind, it=None):
        """Something that a process is asked, this one where one is given, or None."""
        dice = self.dice
        if kind == "deliver":
            return self.drawn_delivery(it)
        if kind == "again":
            if not self.sent:
                return None
            bytes_ = dice.choice(self.sent[-200:] if dice.random() < 0.7 else self.sent)
            hears = self.all[bytes_[3] - 1]
            return ("hear", bytes_[3], bytes_) if hears.running and it in (None, hears) else None
        if kind == "foretell":
            # mostly of one that may be heard next
            messages = [bytes_ for bytes_ in (self.waiting if self.waiting and dice.random() < 0.9 else self.sent[-200:]) if it in (None, self.all[bytes_[3] - 1])]
            bytes_ = dice.choice(messages) if messages else None
            return ("foretell", bytes_[3], bytes_) if bytes_ and self.all[bytes_[3] - 1].running else None
        if not it:
            it = self.leader() if kind in FOR_LEADERS else self.any_up()
            if kind == "ask":
                behind = [it for it in self.up() if any(other.twin.known() > it.twin.known() for other in self.up())]
                it = dice.choice(behind) if behind and dice.random() < 0.8 else it
        if not it or kind in ("ask", "unfit") and self.nodes == 1:
            return None
        twin, number = it.twin, it.number
        if kind == "bad":
            return "bad", number, self.bad_frame(it)
        if kind == "unfit":
            return "unfit", number, self.unfit_message(it)
        if kind == "submit":
            client = dice.choice(list(self.clients))
            sequence = max(1, self.clients[client] + dice.choice([0, 0, 0, 0, 0, 0, 0, 0, 1, -1]))
            return "submit", number, *self.request(client, sequence)
        if kind == "turn":
            busy = [lane for lane, frame in twin.state.frames.items() if frame.status != "waiting"] if twin.role == "active" else []
            lane = dice.choice(busy) if busy and dice.random() < 0.7 else dice.randint(1, self.service.lanes)
            return "turn", number, lane, self.drawn_clock()
        if kind == "run":
            return "run", number, self.drawn_clock()
        if kind == "ask":
            return "ask", number, dice.choice([other for other in range(1, self.nodes + 1) if other != number])
        if kind == "read":
            seen = dice.choice([0, 0, twin.replayed, twin.replayed + 1])
            return "read", number, dice.choice(list(self.clients)), seen, dice.choice(list(self.service.variables))
        return kind, number

    def drawn_delivery(self, it):
        """A message that nobody was handed yet, to this process where one is given."""
        dice, waiting = self.dice, [bytes_ for bytes_ in self.waiting if it in (None, self.all[bytes_[3] - 1])]
        if not waiting:
            return None
        bytes_ = waiting[dice.choice([0, 0, 0, min(1, len(waiting) - 1), dice.randrange(len(waiting)), len(waiting) - 1])]
        is_up = self.all[bytes_[3] - 1].running
        if is_up or dice.random() < 0.3:
            self.waiting.remove(bytes_)
        return ("hear", bytes_[3], bytes_) if is_up else None

    def drawn_clock(self):
        """A clock that mostly goes on, and is seldom far off: all later ones are at least that."""
        dice = self.dice
        if dice.random() < 0.01:
            return dice.choice([2 ** 63 - 1, dice.randrange(2 ** 62)])
        return dice.choice([self.steps, self.steps, self.steps - dice.randrange(100), 0, -1, -2 ** 63])

    def bad_frame(self, it):
        """A frame that asks for nothing that there is."""
        dice, lanes = self.dice, self.service.lanes
        if self.sent and dice.random() < 0.6:
            return framed(dice.choice([b"M", b"M", b"W"]) + self.bad_message(dice.choice(self.sent), it.number))
        name, count = dice.choice(sorted(self.handlers.items()))
        good = " ".join([name, *["1"] * count])
        lines = ["", "1", "1 1", "0 1 " + good, "257 1 " + good, "1 0 " + good, "1 1000001 " + good, "01 1 " + good, "-1 1 " + good]
        lines += ["1 1 %s 1" % good, "1 1 nothing", "1 1 %s x" % name]
        if count:
            lines += ["1 1 %s%s" % (name, " 9223372036854775808" * count), "1 1 %s%s" % (name, " +1" * count)]
        others = [
            b"", b"X", b"z", b"P", b"K", b"D", b"M", b"W", b"E1", b"T1", b"C" + bytes(4), b"E" + bytes(70000), b"L", b"L\1" + bytes(7), b"L" + bytes(9),
            b"L\1" + bytes(9), b"L" + bytes([lanes + 1]) + bytes(8), b"R", b"R" + bytes(7), b"R" + bytes(9), b"A", b"A\0", b"A" + bytes([it.number]),
            b"A" + bytes([self.nodes + 1]), b"A\1\1", b"Q", b"Q" + bytes(6), b"Q" + bytes(6) + b"nothing",
        ]
        return framed(dice.choice([*others, *(b"S" + line.encode() for line in lines)]))

    def bad_message(self, bytes_, number):
        """A message that no node of the cluster sent to this one: cut off, with more behind it, for another node, from itself or one that isn't there,
        with a ballot of another node, or one that tells a state."""
        dice, kind = self.dice, bytes_[1]
        way = dice.randrange(6)
        sender = bytes_[2] if bytes_[2] != number else number % self.nodes + 1
        if way == 0:
            return bytes_[:dice.randrange(len(bytes_))]
        if way == 1:
            return bytes_ + b"\0"
        if way == 2:
            return bytes([1, kind, bytes_[2], dice.choice([0, *(it for it in range(1, self.nodes + 2) if it != number)])]) + bytes_[4:]
        if way == 3:
            return bytes([1, kind, dice.choice([0, number, self.nodes + 1, 255]), number]) + bytes_[4:]
        if way == 4 and kind in (1, 2, 3, 4, 6):
            # whose a ballot is stands in its last four bits
            other = dice.choice([it for it in range(1, self.nodes + 1) if it != (sender if kind in (1, 3) else number)])
            return bytes([1, kind, sender, number]) + bytes_[4:11] + bytes([bytes_[11] & 240 | other]) + bytes_[12:]
        return struct.pack(">BBBBII", 1, MESSAGES["snapshot"], sender, number, 1, 0)

    def unfit_message(self, it):
        """A message that tells of the next instance a value which doesn't fit there: no delta, a part of one, or one that was agreed on before."""
        dice, held = self.dice, it.twin.held
        known = [value.bytes for value in held[-5:]]
        value = dice.choice([b"", dice.randbytes(dice.randrange(1, 60)), *known, *(value[:-1] for value in known)])
        return chosen_bytes(it.number % self.nodes + 1, it.number, len(held) + 1, value)

    def drawn_start(self, kind):
        dice = self.dice
        if kind == "start badly":
            return dice.randint(1, 7), dice.choice([KILLED_BEFORE, KILLED_AFTER, FAILS]), dice.random()
        return [dice.choice(WRONG)] if kind == "start wrongly" else []
