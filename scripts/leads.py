"""Why nodes lost their lead, or didn't come to it, and why deltas that they proposed aren't agreed: what a report of `rex run` tells of it.

A ballot changes by `elect` alone, so what a node's prepares and accepts carry is the last ballot that it was reported to ask with; and what a
nack names is the promise that its sender was reported to have when it refused."""
import re

KINDS = "prepare|promise|accept|accepted|chosen|nack|ask|snapshot"
WHAT = re.compile(
    r"(?P<line>[1-9]\d{0,5}) (?:node (?P<node>[1-9]) (?P<word>candidate ballot|active ballot|adopts|proposes|promised|accepted|known|transferred|started promised|"
    r"follower|stopped|down|is down|keepfail)(?: (?P<number>\d{1,20}))?(?: .*)?|(?P<way>sent|message) (?P<at>[1-9]\d{0,19}) (?P<kind>" + KINDS + r") (?P<sender>[1-9]) (?P<receiver>[1-9]))")
END = re.compile(r"^end node ", re.MULTILINE)
# of so many leads and proposals it is told what became of them
MOST = 6
ROLES = {"candidate": "candidate", "adopting": "adopting", "active": "leader"}
# the kinds of messages that an answer of a kind may be due to
ASKED = {"promise": ["prepare"], "accepted": ["accept"], "nack": ["prepare", "accept"], "snapshot": ["prepare", "accept", "ask"]}


class Message:
    """A message, the ballot that it carries or that a nack names, and the times that it was handed over."""

    def __init__(self, number, kind, sender, receiver, ballot):
        self.number, self.kind, self.sender, self.receiver, self.ballot, self.times = number, kind, sender, receiver, ballot, []

    def named(self):
        return f"{'an' if self.kind[0] == 'a' else 'a'} {self.kind}"

    def last_time(self, until):
        """The last time up to a line, but one at which it was taken goes before others; or None."""
        times = [it for it in self.times if it.line <= until]
        return next((it for it in reversed(times) if it.met == "taken"), times[-1] if times else None)


class Time:
    """A time that a message was handed over: the line, what the receiver had promised before, what the message met, and the answer to it."""

    def __init__(self, line, message, promised):
        self.line, self.message, self.promised, self.answer = line, message, promised, None
        self.met = "refused" if message.kind in ("prepare", "accept") and promised > message.ballot else "taken"


class Lead:
    """What a node does with a ballot: its role, since which line, the delta that it has proposed and the line of that, if it doesn't know it
    to be agreed, and the messages of the last round."""

    def __init__(self, ballot, line):
        self.ballot, self.role, self.line, self.open, self.round = ballot, "candidate", line, None, []


class Loss:
    """The end of a node's lead: its line, how it came, and the message that brought it, if one did; `number` is what else is told of that."""

    def __init__(self, line, node, lead, how, message, number):
        self.line, self.node, self.lead, self.how, self.message, self.number = line, node, lead, how, message, number

    def why(self):
        it = self.message
        if self.how != "follower":
            return {"stopped": "is stopped", "down": f"goes down: its keeper failed, as line {self.number} says"}.get(self.how, f"is elected again, with ballot {self.number}")
        told = {"nack": f", which had promised ballot {it.ballot}", "chosen": f", by which delta {self.number} is agreed", "snapshot": f", by which deltas up to {self.number} are agreed"}
        ballot = f" of ballot {it.ballot}" if it.kind in ("prepare", "accept") else ""
        return f"follows: message {it.number} is {it.named()}{ballot} from node {it.sender}{told.get(it.kind, '')}"

    def told(self):
        first = f"    line {self.line}: node {self.node}, {ROLES[self.lead.role]} with ballot {self.lead.ballot}, {self.why()}"
        if self.lead.open:
            first += f". It doesn't know its delta {self.lead.open[0]} of line {self.lead.open[1]} to be agreed"
        nacked_by = self.message.sender if self.message and self.message.kind == "nack" else None
        is_waiting = self.lead.open or self.lead.role == "candidate"
        return [first, *fates([it for it in self.lead.round if is_waiting and it.receiver != nacked_by], self.line)]


class Reading:
    """What is known of nodes and messages so far; `losses` are the ends of leads."""

    def __init__(self):
        self.leads, self.ballots, self.promised, self.failing, self.messages, self.losses = {}, {}, {}, {}, [], []
        self.line, self.here, self.came, self.number = 0, [], None, 0

    def take(self, found):
        line = int(found["line"])
        if line != self.line:
            self.line, self.here, self.came = line, [], None
        if found["way"] == "sent":
            self.take_sent(found["kind"], int(found["sender"]), int(found["receiver"]))
        elif found["way"]:
            message = self.messages[int(found["at"]) - 1]
            self.came, self.number = Time(line, message, self.promised.get(message.receiver, 0)), 0
            message.times.append(self.came)
            self.here.append(self.came)
        else:
            self.take_text(int(found["node"]), found["word"], int(found["number"] or 0))

    def take_sent(self, kind, sender, receiver):
        """A message, which answers the first one of this line that such an answer is due to, if there is one."""
        message, lead = Message(len(self.messages) + 1, kind, sender, receiver, self.ballots.get(sender, 0)), self.leads.get(sender)
        self.messages.append(message)
        if kind in ("prepare", "accept") and lead is not None:
            lead.round.append(message)
        for time in self.here if kind in ASKED else ():
            asked, met = time.message, "refused" if kind == "nack" else "taken"
            if time.answer is None and time.met == met and asked.kind in ASKED[kind] and (asked.sender, asked.receiver) == (receiver, sender):
                time.answer, message.ballot = message, time.promised
                break

    def take_text(self, node, word, number):
        lead, came = self.leads.get(node), self.came
        if word in ("promised", "accepted", "candidate ballot", "started promised"):
            self.promised[node] = max(number, self.promised.get(node, 0))
        if word in ("known", "transferred"):
            self.number = number
            if lead is not None and lead.open and lead.open[0] <= number:
                lead.open = None
        if word == "keepfail":
            self.failing[node] = self.line
        if word in ("is down", "down") and came is not None:
            came.met = word
        if word in ("candidate ballot", "follower", "stopped", "down") and lead is not None:
            self.losses.append(Loss(self.line, node, lead, word, came and came.message, number or (self.failing.get(node) if word == "down" else self.number)))
            self.leads[node] = None
        if word == "candidate ballot":
            self.leads[node], self.ballots[node] = Lead(number, self.line), number
        elif word == "active ballot" and lead is not None:
            lead.role, lead.line, lead.round = "active", self.line, []
        elif word in ("adopts", "proposes") and lead is not None:
            lead.role, lead.open, lead.round = "adopting" if word == "adopts" else "active", (number, self.line), []


def fate(message, until):
    """What became by a line of a message that an answer is due to, or None where the answer came."""
    what, to, time = f"message {message.number}, {message.named()} to node {message.receiver},", f"node {message.receiver}", message.last_time(until)
    if time is None:
        return f"{what} was " + (f"handed over later, at line {message.times[0].line}" if message.times else "never handed over")
    if time.met in ("is down", "down"):
        return f"{what} came at line {time.line}, and " + (f"{to} was down" if time.met == "is down" else f"the keeper of {to} failed")
    if time.met == "refused":
        return f"{to} refused message {message.number}, {message.named()}, at line {time.line}: it had promised ballot {time.promised}"
    answer = time.answer
    if answer is None or answer.last_time(until) is not None:
        return None
    later = f"handed over later, at line {answer.times[0].line}" if answer.times else "never handed over"
    return f"{to} answered message {message.number}, {message.named()}, and its answer, message {answer.number}, was {later}"


def fates(messages, until):
    return [f"        {told}" for told in (fate(it, until) for it in messages) if told]


def unfinished(node, lead, quorum, line):
    """What a lead waits for at the end of a run, below a sentence that says so; nothing of one that doesn't."""
    if lead is None or (lead.open is None and lead.role == "active"):
        return []
    what = f"{ROLES[lead.role]} with ballot {lead.ballot}, needs {quorum - 1} other node{'s' if quorum > 2 else ''} to "
    return [f"    at the end node {node}, {what}" + (f"accept delta {lead.open[0]} of line {lead.open[1]}" if lead.open else f"promise what it asked for at line {lead.line}"), *fates(lead.round, line)]


def read(text):
    reading = Reading()
    for line in text.split("\n"):
        found = WHAT.fullmatch(line)
        if found:
            reading.take(found)
    return reading


def lead_note(text):
    """What became of leads and proposals that came to nothing, below a line that says so; else none."""
    reading, nodes = read(text), len(END.findall(text))
    told = [it.told() for it in reading.losses]
    told += [some for some in (unfinished(node, lead, nodes // 2 + 1, reading.line) for node, lead in sorted(reading.leads.items())) if some]
    if not told:
        return ""
    left = len(told) - MOST
    return "\n".join(["leads that ended, and what lacks a majority:", *(line for some in told[:MOST] for line in some), *([f"    and {left} more"] if left > 0 else [])]) + "\n"
