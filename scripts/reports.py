"""Reports of `rex run`, read for the scripts that draw them: what happened at which node, line by line of the schedule."""
import collections
import re
import signal
import sys

# The texts of a report. Each has a kind, a form, and a short label. `minor` ones say what a node did alone, or that nothing happened.
NODE = r"node (?P<node>[1-9]) "
TEXTS = [
    ("role", NODE + r"(?P<role>candidate) ballot (?P<b>\d+)", "candidate, ballot {b}"),
    ("role", NODE + r"(?P<role>adopts) (?P<i>\d+) events (?P<e>\d+)", "adopts delta {i} ({e} events)"),
    ("role", NODE + r"(?P<role>active) ballot (?P<b>\d+)", "leads, ballot {b}"),
    ("role", NODE + r"(?P<role>follower)", "follows"),
    ("stop", NODE + r"(?P<role>stopped)", "stopped"),
    ("stop", NODE + r"(?P<role>down)", "its record failed: down"),
    ("stop", NODE + r"(?P<role>started) promised (?P<p>\d+) known (?P<k>\d+) replayed (?P<r>\d+)", "started: promised {p}, known {k}, replayed {r}"),
    ("vote", NODE + r"promised (?P<b>\d+)", "promised {b}"),
    ("vote", NODE + r"accepted (?P<b>\d+) (?P<i>\d+)", "accepts delta {i}, ballot {b}"),
    ("vote", NODE + r"proposes (?P<i>\d+) events (?P<e>\d+)", "proposes delta {i} ({e} events)"),
    ("known", NODE + r"known (?P<i>\d+)", "knows delta {i}"),
    ("released", r"released (?P<c>\d+) (?P<s>\d+) (?P<v>-?\d+)", "reply {v} to client {c}"),
    ("keep", NODE + r"checkpoint (?P<k>\d+)", "checkpoint after delta {k}"),
    ("keep", NODE + r"migrated (?P<k>\d+)", "migrates the checkpoint after delta {k}"),
    ("keep", NODE + r"dropped (?P<k>\d+)", "forgets deltas up to {k}"),
    ("known", NODE + r"transferred (?P<k>\d+)", "takes over the state after delta {k}"),
    ("keep", NODE + r"replayed (?P<k>\d+)", "replayed up to delta {k}"),
    ("stop", NODE + r"keepfail (?P<how>kept|lost)", "next record fails, {how}"),
    ("quiet", NODE + r"up to date", "up to date"),
    ("quiet", NODE + r"is (?P<how>down|up)", "is {how}"),
    ("quiet", NODE + r"spent", "no ballots left"),
    ("read", r"read (?P<c>\d+) (?P<name>[A-Za-z]\w{0,31}) (?P<v>-?\d+) at (?P<k>\d+)", "client {c} reads {name} = {v} after delta {k}"),
    ("read", r"behind (?P<h>\d+) (?P<s>\d+)", "is after delta {h}, and the client after {s}"),
    ("quiet", r"primary", "leads: read there by a request"),
    ("quiet", r"have (?P<x>\d+)", "{x} so far"),
    ("quiet", r"(?P<all>ignored (?:late|(?:ballot|instance) \d+ \d+|again \d+))", "{all}"),
    ("quiet", r"(?P<all>not active (?:follower|candidate|adopting)|open \d+|ended|live \d+|no message \d+|nothing)", "{all}"),
    ("event", r"lane (?P<lane>\d+) (?P<index>\d+) (?P<event>(?:begin|acquire|share|release|try|wait|wake|signal|broadcast|down|up|clock|random|reply) .+)", "{event}"),
    ("idle", r"lane (?P<lane>\d+) (?P<how>idle|held by \d+|unsignalled|at zero \w+|full)", "{how}"),
    ("submit", r"(?P<all>queued|waiting|old \d+|gap \d+)", "{all}"),
]
# no number of a report has more than twenty digits
TEXTS = [(kind, re.compile(form.replace(r"\d+", r"\d{1,20}")), label) for kind, form, label in TEXTS]
MINOR = ("event", "idle", "submit")
# The texts of a report that say that nothing came of a line, each with its form, a name, and why that is.
NOTHING = [
    (r"not active (?:follower|candidate|adopting)", "not active", "the node doesn't lead"),
    (r"lane \d+ idle", "lane idle", "no request is queued for it"),
    (r"lane \d+ held by \d+", "lane held", "another lane has the lock"),
    (r"lane \d+ unsignalled", "lane unsignalled", "it waits for a signal"),
    (r"lane \d+ at zero \w+", "lane at zero", "its semaphore's value is 0"),
    (r"lane \d+ full", "lane full", "4,096 events are live: cut first"),
    (r"waiting", "waiting", "the request is queued or begun already, and its reply isn't agreed yet"),
    (r"old \d+", "old", "the client has sent a later request"),
    (r"gap \d+", "gap", "the client's request before it is missing or not replied to"),
    (r"primary", "primary", "the node leads, so it is read there by a request"),
    (r"open \d+", "open", "the node's last proposal isn't agreed yet"),
    (r"ended", "ended", "65,535 deltas are known, and there can be no more"),
    (r"live \d+", "live", "the leader has events that aren't agreed: cut first"),
    (r"nothing", "nothing", "there was nothing to hand over, cut, tell, keep or drop"),
    (r"no message \d+", "no message", "fewer were sent"),
    (r"ignored ballot \d+ \d+", "ignored ballot", "the message is of another ballot than the node's own"),
    (r"ignored late", "ignored late", "the node doesn't ask for promises any more"),
    (r"ignored instance \d+ \d+", "ignored instance", "the message is of another delta than the one due"),
    (r"ignored again \d+", "ignored again", "its sender is counted already"),
    (r"node \d up to date", "up to date", "the node leads, or has run all that it knows"),
    (r"node \d is down", "is down", "the node is down"),
    (r"node \d is up", "is up", "the node runs already"),
    (r"node \d spent", "spent", "the node has no ballot left"),
]
ANY_NOTHING = re.compile("|".join(f"(?P<n{at}>{form})" for at, (form, _, _) in enumerate(NOTHING)))
MESSAGE = re.compile(r"(sent|message) ([1-9]\d{0,19}) (prepare|promise|accept|accepted|chosen|nack|ask|snapshot) ([1-9]) ([1-9])")
LINE = re.compile(r"([1-9]\d{0,5}) (.+)")
END = re.compile(r"end node ([1-9]) (down|(?:active|follower|candidate|adopting) promised \d+ known \d+ (?:live|replayed) \d+(?: \w+=-?\d+)*)")
# the kinds of messages that answer one message each, and the kinds that they answer
ANSWERS = {"promise": ["prepare"], "accepted": ["accept"], "nack": ["prepare", "accept"], "snapshot": ["prepare", "accept", "ask"]}
ROLES = {"candidate": "candidate", "adopts": "adopting", "active": "active", "follower": "follower", "stopped": "down", "down": "down", "started": "follower"}


class Mark:
    """A text of a step: its kind, its short label, what it was, its parts by their names, and the role that it gives its node, if any."""

    def __init__(self, kind, label, text, parts):
        self.kind, self.label, self.text, self.parts, self.role = kind, label, text, parts, ROLES.get(parts.get("role"))


class Step:
    """What happened at a node in a schedule line: the message that was handed over, if one was, the marks, and what was sent.
    `node` is None where the report doesn't tell it."""

    def __init__(self, line, node, message=None):
        self.line, self.node, self.message, self.marks, self.sends = line, node, message, [], []

    def is_down(self):
        """Whether it came to a node that is down."""
        return any(mark.text.endswith(" is down") for mark in self.marks)

    def is_read(self):
        """Whether a client was told a variable's value, or that the node has run too little."""
        return any(mark.kind == "read" for mark in self.marks)

    def calls_for(self, message):
        """Whether this step has what such a message is sent for."""
        came = self.message
        if any(mark.role == "down" or mark.text.endswith(" is down") or mark.text == "nothing" for mark in self.marks):
            return False
        if message.kind in ANSWERS:
            return came is not None and came.kind in ANSWERS[message.kind] and came.sender == message.receiver
        if message.kind == "chosen":
            is_known = any(mark.kind == "known" and " known " in mark.text for mark in self.marks) and (came is None or came.kind != "chosen")
            return is_known or (came is not None and came.kind == "ask" and came.sender == message.receiver)
        return message.kind != "accept" or any("proposes" in mark.text or "adopts" in mark.text for mark in self.marks)

    def has_sent(self, message):
        """Whether it has sent such a message to the same node, or the one message that it answers with."""
        return bool(self.sends) if message.kind in ANSWERS else any((it.kind, it.receiver) == (message.kind, message.receiver) for it in self.sends)


class Message:
    """A message, the step that sent it, and the steps in which it was handed over."""

    def __init__(self, number, kind, sender, receiver):
        self.number, self.kind, self.sender, self.receiver, self.sent_in, self.handed_over = number, kind, sender, receiver, None, []


class Bad(Exception):
    """What is wrong in a line of a report."""


class Report:
    """The lines, the steps, the messages by number, and the end lines of the nodes."""

    def __init__(self):
        self.lines, self.steps, self.messages, self.ends, self.here = [], [], [], [], []

    def take(self, line):
        self.lines.append(line)
        end = END.fullmatch(line)
        if end:
            if int(end[1]) != len(self.ends) + 1:
                raise Bad(f"the end line of node {len(self.ends) + 1} is due")
            self.ends.append(end[2])
            return
        parts = LINE.fullmatch(line)
        if line.startswith("refused "):
            raise Bad("this run was refused, so there is nothing to draw")
        if self.ends:
            raise Bad("behind an end line only end lines may stand")
        if not parts:
            raise Bad(f"a line of a report is due, NUMBER and a text, not {line[:60]!r}")
        number = int(parts[1])
        if self.steps and number < self.steps[-1].line:
            raise Bad("lines of a report rise by number")
        if self.steps and number > self.steps[-1].line:
            self.here = []
        message = MESSAGE.fullmatch(parts[2])
        if message:
            self.take_message(number, message[1], int(message[2]), message[3], int(message[4]), int(message[5]))
        else:
            self.take_text(number, parts[2])

    def step(self, line, node, message=None):
        self.here.append(Step(line, node, message))
        self.steps.append(self.here[-1])
        return self.here[-1]

    def take_message(self, line, word, number, kind, sender, receiver):
        if word == "sent":
            if number != len(self.messages) + 1:
                raise Bad(f"message {len(self.messages) + 1} is the next one that is sent")
            message = Message(number, kind, sender, receiver)
            self.messages.append(message)
            message.sent_in = self.origin(message) or self.step(line, sender)
            message.sent_in.node = sender
            message.sent_in.sends.append(message)
            return
        if number > len(self.messages):
            raise Bad(f"message {number} wasn't sent")
        message = self.messages[number - 1]
        if (message.kind, message.sender, message.receiver) != (kind, sender, receiver):
            raise Bad(f"message {number} is {message.kind} {message.sender} {message.receiver}")
        message.handed_over.append(self.step(line, receiver, message))

    def origin(self, message):
        """The step of this line that sent a message. A report tells what was sent behind all else that a line did, in the order of the
        steps that sent it: so it is the first step of the sender, from the last one on that sent something, that calls for such a message
        and didn't send it yet, or the last one."""
        since = max((at for at, step in enumerate(self.here) if step.sends), default=0)
        mine = [step for step in self.here[since:] if step.node in (message.sender, None)]
        calling = [step for step in mine if step.calls_for(message)]
        fresh = [step for step in calling if not step.has_sent(message)]
        return (fresh[:1] or calling[-1:] or mine[-1:] or [None])[0]

    def take_text(self, line, text):
        kind, found, label = next(((kind, form.fullmatch(text), label) for kind, form, label in TEXTS if form.fullmatch(text)), (None, None, None))
        if not found:
            raise Bad(f"no report has the text {text[:60]!r}")
        parts = found.groupdict()
        node = int(parts["node"]) if parts.get("node") else None
        step = self.here[-1] if self.here else self.step(line, node)
        if step.node is None:
            step.node = node
        if node not in (step.node, None):
            raise Bad(f"this line is node {step.node}'s")
        step.marks.append(Mark(kind, label.format(**parts), text, parts))

    def check(self, schedule):
        """Whether all of it fits together, and with the schedule, if there is one, each line of which is told of."""
        if len(self.ends) not in (1, 3, 5, 7, 9):
            raise Bad(f"the end lines of 1, 3, 5, 7 or 9 nodes are due, and there are {len(self.ends)}")
        nodes = [it.node or 1 for it in self.steps] + [it.receiver for it in self.messages]
        if max(nodes, default=1) > len(self.ends):
            raise Bad("a node without an end line has a part in the report")
        last = self.steps[-1].line if self.steps else 0
        if schedule is not None and len(schedule) != last:
            raise Bad(f"the scenario has {len(schedule)} schedule lines, and the report tells of {last}")
        for step in self.steps if schedule is not None else ():
            if not self.fits(step, schedule[step.line - 1]):
                raise Bad(f"what the report tells of line {step.line} isn't what the scenario has there: {' '.join(schedule[step.line - 1])[:60]}")

    def fits(self, step, words):
        """Whether a step may be of the schedule line with these words."""
        if words[0] == "flush" or (words[0] == "deliver" and len(words) == 2):
            numbers = words[1:] or (step.message and [str(step.message.number)])
            return [str(step.message.number)] == numbers if step.message else step.node is None
        is_node = len(words) > 1 and words[1] in [str(node + 1) for node in range(len(self.ends))]
        return is_node and step.message is None and step.node in (None, int(words[1]))

    def place(self, schedule):
        """Gives each step a node that the report doesn't tell: by the schedule where there is one, else the leader with the greatest
        ballot, if there is one, but for reads, which are at nodes that don't lead."""
        leaders = {}
        for step in self.steps:
            if step.node is None and schedule is not None:
                words = schedule[step.line - 1]
                step.node = int(words[1]) if words[0] not in ("flush", "deliver") else None
            elif step.node is None and leaders and not step.is_read():
                step.node = max(leaders, key=leaders.get)
            for mark in step.marks:
                if mark.role == "active":
                    leaders[step.node] = int(mark.text.split(" ")[-1])
                elif mark.role:
                    leaders.pop(step.node, None)


def idle_lines(text):
    """How many schedule lines a report tells of, and of how many of them nothing came, by the name of the first text that says so."""
    came, last, counts = {}, 0, collections.Counter()
    for line in text.split("\n"):
        parts = LINE.fullmatch(line)
        if parts and not parts[2].startswith("message "):
            last = int(parts[1])
            found = ANY_NOTHING.fullmatch(parts[2])
            name = NOTHING[int(found.lastgroup[1:])][1] if found else None
            came[last] = name and came.get(last, name)
    counts.update(name for name in came.values() if name)
    return last, counts


def idle_note(text):
    """A line for each reason for which nothing came of schedule lines, the most frequent first, below one that counts them; else none."""
    last, counts = idle_lines(text)
    if not counts:
        return ""
    whys = {name: why for _, name, why in NOTHING}
    head = f"nothing came of {sum(counts.values())} of {last} schedule lines:"
    return "\n".join([head, *(f"    {count} `{name}`: {whys[name]}" for name, count in counts.most_common())]) + "\n"


def read_schedule(path):
    """The words of the schedule lines of a scenario."""
    with open(path, encoding="ascii", errors="replace") as it:
        lines = [line.split() for line in it]
    if ["%schedule"] not in lines:
        raise Bad(f"{path} is no scenario: it has no %schedule")
    return [words for words in lines[lines.index(["%schedule"]) + 1:] if words and words[0][0] != "#"]


def read_report(name, files):
    """The report of the first of these files, or of standard input, and the schedule of the second one, if there is one. Ends
    here, naming the bad line, where a file isn't as it has to be."""
    report, number = Report(), None
    # who reads the output may stop before its end
    signal.signal(signal.SIGPIPE, signal.SIG_DFL)
    if not files and sys.stdin is not None and sys.stdin.isatty():
        print(f"{name}: reading from the terminal; Ctrl-D on a line of its own ends the input", file=sys.stderr)
    try:
        with open(files[0] if files else 0, encoding="ascii", errors="replace") as it:
            for number, line in enumerate(it.read().removesuffix("\n").split("\n"), 1):
                report.take(line)
        number = None
        schedule = read_schedule(files[1]) if len(files) > 1 else None
        report.check(schedule)
    except OSError as why:
        sys.exit(f"{name}: {why.filename}: {why.strerror}")
    except Bad as why:
        sys.exit(f"{name}: {why}" if number is None else f"{name}: line {number}: {why}")
    report.place(schedule)
    return report, schedule
