"""Schedules of processes: what is asked of them and what befalls them, step by step, and what they have to answer."""
import os
import random
import signal
import struct
import subprocess
import time

from model.live import trace_of

from . import journals
from .drawing import FOR_LEADERS, Drawing
from .processes import FAILS, KILLED_AFTER, KILLED_BEFORE, Difference
from .spelling import framed, message_shown, shown
from .twins import different

ENDINGS = ("die", "fail", "raw")
OF_DOWN = ("start", "start badly", "start wrongly")
NAMES = (
    "kills", "blackouts", "deaths", "raw kills", "failed flushes", "undisturbed", "kept groups", "lost groups", "starts", "bad starts", "wrong starts",
    "second starts", "forks left", "lost writes", "torn", "stale", "leaders", "adopted", "unfit", "faulty", "full", "longest frame", "answers", "known",
    "values", "events", "foretold", "released", "traces",
)


class Schedule(Drawing):
    """The processes of a cluster as they do what is drawn, each compared with its twins."""

    def fault(self, it, text, *parts):
        return Difference("step %d, node %d%s" % (self.steps, it.number, text % parts))

    # -- asking

    def ask(self, it, what, frame, call):
        """Asks a process for what its twin does. Where it may be one of several twins the answer decides."""
        if len(it.twins) == 1:
            bytes_, sends, report = it.twin.answers([call])
            it.put(what, frame, bytes_)
            return self.note(sends, report)
        found = [(twin, *twin.answers([call])) for twin in it.twins]
        it.flush()
        self.take_answers(it, what, found, it.answers_to(frame, 1))

    def take_answers(self, it, what, found, got):
        """What twins answer is found, and what the process answered is got: of these twins it may be those that answer so."""
        left = [one for one in found if one[1] == got]
        if not left:
            raise self.fault(it, ", %s: it answers [%s] and has to answer one of [%s]", what, shown(got), "] [".join(shown(one[1]) for one in found))
        self.note(*left[0][2:])
        it.twins = [one[0] for one in left]

    def note(self, sends, report):
        self.counts["answers"] += 1
        for message, bytes_ in sends:
            self.messages[bytes_] = message
            self.sent.append(bytes_)
            self.waiting.append(bytes_)
        for text in report:
            if text.startswith("released"):
                _, client, sequence, _ = text.split(" ")
                self.clients[int(client)] = max(self.clients[int(client)], int(sequence) + 1)
                self.counts["released"] += 1
            elif " known " in text:
                self.counts["known"] += 1
            elif " active ballot" in text:
                self.counts["leaders"] += 1
            elif " adopts " in text:
                self.counts["adopted"] += 1
            elif text.endswith(" full"):
                self.counts["full"] += 1

    # -- what is asked for

    def made(self, kind, number, *parts):
        """What a process is asked, in words, as a frame, and as a call of its twin."""
        if kind == "hear":
            message = self.messages[parts[0]]
            return "hears %s" % message_shown(parts[0]), framed(b"M", parts[0]), lambda twin: twin.receive(message)
        if kind == "foretell":
            message = self.messages[parts[0]]
            return "would hear %s" % message_shown(parts[0]), framed(b"W", parts[0]), lambda twin: self.foretell(twin, message)
        if kind == "bad":
            return "gets %s" % parts[0][:60].hex(), parts[0], lambda twin: twin.nothing()
        if kind == "unfit":
            instance = int.from_bytes(parts[0][4:8], "big")
            return "hears of an unfit value %d" % instance, framed(b"M", parts[0]), lambda twin: twin.hear_unfit(instance)
        if kind == "submit":
            client, sequence, name, arguments = parts
            line = " ".join(map(str, [client, sequence, name, *arguments]))
            return "submit " + line, framed(b"S", line.encode()), lambda twin: twin.submit(parts)
        if kind == "turn":
            return "lane %d at %d" % parts, framed(b"L", struct.pack(">Bq", *parts)), lambda twin: twin.take_turn(*parts)
        if kind == "run":
            return "run at %d" % parts, framed(b"R", struct.pack(">q", *parts)), lambda twin: twin.run(*parts)
        if kind == "ask":
            return "ask %d" % parts, framed(b"A", struct.pack(">B", *parts)), lambda twin: twin.ask_other(*parts)
        if kind == "read":
            return "read %d %d %s" % parts, framed(b"Q", struct.pack(">HI", *parts[:2]) + parts[2].encode()), lambda twin: twin.read_at(*parts)
        calls = {"elect": (b"E", lambda twin: twin.elect()), "cut": (b"C", lambda twin: twin.cut(None)), "status": (b"T", lambda twin: None)}
        return kind, framed(calls[kind][0]), calls[kind][1]

    def foretell(self, twin, message):
        twin.foretell(message)
        self.counts["foretold"] += len(twin.world.report)

    # -- steps

    def step(self):
        kind, dice = self.dice.choices(*self.kinds)[0], self.dice
        self.steps += 1
        if kind in ("kill", "blackout"):
            self.counts["blackouts"] += kind == "blackout"
            for it in self.up() if kind == "blackout" else [self.any_up()]:
                if it:
                    self.do("stop", it.number, dice.random())
        elif kind == "lose":
            if self.waiting:
                self.waiting.pop(dice.randrange(len(self.waiting)))
        elif kind in OF_DOWN:
            down = [it for it in self.all if not it.running]
            if down:
                self.do(kind, dice.choice(down).number, *self.drawn_start(kind))
        elif kind in ENDINGS:
            self.end_in_piece(kind)
        else:
            if kind in FOR_LEADERS and dice.random() < 0.9 and not self.leaders():
                # mostly nobody is asked for what only a leader does
                kind = "deliver" if self.waiting else "elect"
            drawn = self.drawn(kind) or self.drawn("run")
            if drawn:
                self.do(*drawn)
            if self.steps % self.options.batch == 0:
                for it in self.up():
                    it.flush()

    def end_in_piece(self, kind):
        """Draws a piece that has something written, in which the process ends."""
        dice = self.dice
        for _ in range(20):
            drawn = self.drawn(dice.choice(["deliver", "deliver", "deliver", "deliver", "cut", "cut", "elect", "again"]))
            piece = drawn and self.drawn_piece(drawn)
            if piece and (kind == "raw" or self.writes(piece)):
                fate = FAILS if kind == "fail" else dice.choice([KILLED_BEFORE, KILLED_AFTER])
                # it is one write and one sync
                return self.do(kind, drawn[1], piece, dice.randint(1, 3), fate, dice.random())
        return None

    def writes(self, piece):
        """How many records are written by a piece."""
        fork = self.all[piece[0][1] - 1].twin.copy()
        fork.answers([self.made(*drawn)[2] for drawn in piece])
        return fork.appends

    def do(self, kind, number, *parts):
        """Does what was drawn, if it can be done: starts mostly are of a process that is down, all else is of one that runs."""
        it = self.all[number - 1]
        if bool(it.running) == (kind in OF_DOWN):
            return
        piece = [one for one in (parts[0] if kind in ENDINGS else [(kind, number, *parts)]) if one[0] not in ("hear", "foretell") or one[2] in self.messages]
        if not piece:
            return
        if kind in ENDINGS:
            parts = piece, *parts[1:]
        self.log.append((kind, number, *parts))
        calls = {"stop": self.stop, "start": self.start, "start badly": self.start_badly, "start wrongly": self.start_wrongly, "start twice": self.start_twice}
        if kind in calls:
            calls[kind](it, *parts)
        elif kind in ENDINGS:
            self.trouble(it, kind, *parts)
        else:
            self.counts["faulty"] += kind == "bad"
            self.counts["unfit"] += kind == "unfit"
            self.ask(it, *self.made(kind, number, *parts))

    # -- ends

    def after(self, it, seed, has_failed=False):
        """What befalls the journal of a process that ended. Where its file failed, the machine may go on: then what is there is read, and may be lost
        later."""
        dice = random.Random(seed)
        if has_failed and dice.random() < 0.5 and os.path.exists(it.path + ".undo"):
            with open(it.path + ".stale", "ab") as file:
                file.write(journals.read(it.path + ".undo"))
            os.remove(it.path + ".undo")
            self.counts["stale"] += os.path.getsize(it.path + ".stale") > 0
            return
        self.counts["lost writes"] += journals.lose(it.path, dice, dice.choice([0, 0.5, 0.5, 1]))
        if dice.random() < 0.3:
            self.counts["torn"] += journals.tear(it.path, dice)

    def stop(self, it, seed):
        """Kills a process that does nothing."""
        it.flush()
        it.kill()
        self.counts["kills"] += 1
        self.after(it, seed)
        it.twins = [twin.restarted() for twin in it.twins]

    def trouble(self, it, kind, piece, calls, fate, seed):
        """A process ends as it keeps what a piece has it write, or is killed while it works on one. Then nothing of the piece is told, and its records are all
        there, or none."""
        whats, frames, asked = zip(*(self.made(*drawn) for drawn in piece))
        what, bytes_ = ", ".join(whats), b"".join(frames)
        it.flush()
        forks, whole = [], []
        for twin in it.twins:
            other = twin.copy()
            whole.append((other, *other.answers(asked)))
            forks += self.forks(twin, other)
        got, has_failed = self.killed_at_work(it, bytes_) if kind == "raw" else self.ended_by_file(it, what, bytes_, len(piece), kind, calls, fate)
        if not got:
            it.twins = different(forks)
            return self.after(it, seed, has_failed)
        self.take_answers(it, what, whole, got)
        if not it.running:
            it.twins = [one.restarted() for one in it.twins]
            self.after(it, seed)

    def forks(self, twin, other):
        """The twins of a process that comes up without the records of a piece, or with them."""
        forks = twin.restarted(), other.restarted()
        if other.appends > 1:
            forks[0].came_with, forks[1].came_with = "lost groups", "kept groups"
        return forks

    def killed_at_work(self, it, bytes_):
        os.write(it.into, bytes_)
        time.sleep(random.random() * 0.0003)
        got, _ = it.kill()
        self.counts["raw kills"] += 1
        return got, False

    def ended_by_file(self, it, what, bytes_, count, kind, calls, fate):
        """What is answered to a piece of so many frames where the file fails at a write or sync, or the process is killed there: nothing, or, if there are
        fewer of them, all."""
        it.befall(calls, fate)
        got = it.answers_to(bytes_, count)
        if got:
            if it.fate_is_over():
                raise self.fault(it, ", %s: its file %s, and it answers [%s]", what, "failed" if kind == "fail" else "stopped it", shown(got))
            it.befall(0, 0)
            self.counts["undisturbed"] += 1
            return got, False
        rest, status = it.end()
        self.counts["failed flushes" if kind == "fail" else "deaths"] += 1
        if status != (8 if kind == "fail" else -signal.SIGKILL) or rest:
            raise self.fault(it, ", %s: it ends with %d where its file %s", what, status, "failed" if kind == "fail" else "stopped it")
        return b"", kind == "fail"

    # -- starts

    def start(self, it):
        it.start()
        self.counts["starts"] += 1
        got = it.answers_to(framed(b"T"), 1)
        left = [twin for twin in it.twins if twin.status() == got]
        if not left:
            due = "] [".join(shown(twin.status()) for twin in it.twins)
            raise self.fault(it, ": it comes up as [%s]%s, and not as one of [%s]", shown(got), it.end_in_words(), due)
        self.counts["forks left"] += len(left) > 1
        if len(left) == 1 < len(it.twins) and left[0].came_with:
            self.counts[left[0].came_with] += 1
        it.twins = left

    def start_badly(self, it, calls, fate, seed):
        """The journal's file fails, or the program is killed there, while the program starts."""
        it.befall(calls, fate)
        it.start()
        if it.answers_to(framed(b"T"), 1):
            if it.fate_is_over():
                raise self.fault(it, ": it comes up where its file failed")
            it.befall(0, 0)
            it.kill()
            return self.after(it, seed)
        _, status = it.end()
        self.counts["bad starts"] += 1
        if status != (8 if fate == FAILS else -signal.SIGKILL):
            raise self.fault(it, ": it ends with %d where its file failed as it started", status)
        return self.after(it, seed, fate == FAILS)

    def start_wrongly(self, it, how):
        """One with another number, number of nodes, seed, cluster or service comes up with a node's journal: it has to be refused."""
        other = {
            "id": it.number % self.nodes + 1, "nodes": 9 if self.nodes < 9 else 7, "seed": self.seed ^ 1, "cluster": self.cluster[:254] + "y",
            "service": "another",
        }[how]
        if not journals.records_at(it.path) or how == "id" and self.nodes == 1 or how == "nodes" and it.number > other:
            return
        self.plant.claimed(it.path, self.identity_of(it.number, **{how: other}))
        records = journals.records_at(it.path)
        words = self.words_of(it.number, it.path, **{how: other})
        ran = subprocess.run(words, input=framed(b"T"), stdout=subprocess.PIPE, stderr=subprocess.DEVNULL, timeout=60)
        self.counts["wrong starts"] += 1
        if ran.returncode != 7 or ran.stdout or journals.records_at(it.path) != records:
            raise self.fault(it, ": one with another %s comes up with its journal, and ends with %d, answering [%s]", how, ran.returncode, shown(ran.stdout))

    def start_twice(self, it):
        """Another process comes up while the first has its journal: it has to be refused."""
        it.flush()
        words = self.words_of(it.number, self.plant.second(it.path))
        ran = subprocess.run(words, input=framed(b"T"), stdout=subprocess.PIPE, stderr=subprocess.DEVNULL, timeout=60)
        self.counts["second starts"] += 1
        if ran.returncode != 9 or ran.stdout:
            raise self.fault(it, ": a second process comes up with its journal, and ends with %d, answering [%s]", ran.returncode, shown(ran.stdout))

    # -- the end

    def quiet(self):
        """Hands over what is sent from here on until nothing is."""
        while self.waiting:
            bytes_ = self.waiting.pop(0)
            self.do("hear", bytes_[3], bytes_)

    def settle(self):
        """All come up again, one leads, and all learn what it knows."""
        for it in self.all:
            self.do("stop", it.number, self.dice.random())
            self.do("start", it.number)
        self.waiting = []
        leader = self.dice.choice(self.all)
        for _ in range(50):
            # a promise of its own may be behind those of the others
            self.do("elect", leader.number)
            self.quiet()
            if leader.twin.role == "active":
                break
        else:
            raise self.fault(leader, " can't lead")
        for it in self.all:
            while it is not leader and it.twin.known() < leader.twin.known():
                before = it.twin.known()
                self.do("ask", it.number, leader.number)
                self.quiet()
                if it.twin.known() == before:
                    raise self.fault(it, " doesn't learn")
            for name in self.service.variables:
                self.do("read", it.number, 1, 0, name)
        for it in self.all:
            it.flush()
        self.compare(leader)
        for it in self.all:
            it.kill()
            self.trace(it)

    def compare(self, leader):
        """The journals: whose they are, and which values they say are known."""
        agreed = [value.bytes for value in leader.twin.held]
        for it in self.all:
            records = journals.records_at(it.path)
            if records[:1] != [self.identity_of(it.number)]:
                raise self.fault(it, ": its journal begins with %s", records[0].hex() if records else "nothing")
            if journals.known_in(records) != agreed or any([value.bytes for value in twin.held] != agreed for twin in it.twins):
                raise self.fault(it, ": its journal has other values in the end than its twin or the leader")
        self.counts["values"] += len(agreed)
        self.counts["events"] += sum(map(len, leader.twin.held))

    def trace(self, it):
        """What is written of its journal with --trace: the model's lines of what is agreed. Nothing is appended."""
        records, (program, *words) = journals.records_at(it.path), self.words_of(it.number, it.path)
        ran = subprocess.run([program, "--trace", *words], stdin=subprocess.DEVNULL, stdout=subprocess.PIPE, stderr=subprocess.DEVNULL, timeout=60)
        due = "".join(line + "\n" for line in trace_of(it.twin.held)).encode()
        if ran.returncode or ran.stdout != due or journals.records_at(it.path) != records:
            raise self.fault(it, ": its trace ends with %d, and is %r in place of %r", ran.returncode, ran.stdout[-1000:], due[-1000:])
        self.counts["traces"] += bool(due)

    def run(self, steps):
        for it in self.all:
            self.do("start", it.number)
        for _ in range(steps):
            self.step()
        for it in self.up():
            it.flush()
        self.settle()

    def close(self):
        for it in self.all:
            it.close()

    # -- in words

    def worded(self, one):
        """A step in words."""
        kind, number, *parts = one
        if kind in ENDINGS:
            does = {"die": "dies", "fail": "its file fails", "raw": "is killed"}[kind]
            piece = ", ".join(self.worded(one).split(" ", 2)[2] for one in parts[0])
            return "node %d %s: %s, at call %d of its file (%s)" % (
                number, does, piece, parts[1], {KILLED_BEFORE: "before", KILLED_AFTER: "after", FAILS: "instead"}[parts[2]])
        if kind == "stop" or kind.startswith("start"):
            return " ".join(["node", str(number), kind, *(part for part in parts if isinstance(part, str))])
        if kind == "hear":
            return "node %d hears %s" % (number, message_shown(parts[0]))
        return "node %d %s" % (number, self.made(*one)[0])
