"""Scenarios: what their lines say, and the first line that is refused, with its code S1 to S13."""
from .services import Service
from .texts import MOST_BYTES, Refused, is_allowed, is_name, is_skipped, lines_of, natural, signed, words_of

MOST_REQUESTS, MOST_LINES = 65536, 100000
# of a service whose states have the old version of a snapshot
MOST_OLD_LANES, MOST_OLD_VARIABLES = 16, 256
FOLLOWING = {
    "start": ["%nodes"], "%nodes": ["%seed", "%service"], "%seed": ["%service"], "%service": ["%requests"], "%requests": ["%schedule"], "%schedule": [],
}
# the numbers behind each first word of a schedule line, by what they count: nodes, requests, lanes or messages
FORMS = {
    "elect": "n", "replay": "n", "checkpoint": "n", "drop": "n", "stop": "n", "start": "n", "keepfail": "n", "read": "n", "submit": "nr", "lane": "nl", "ask": "nn", "deliver": "m",
    "flush": "",
}
MOST_CLIENTS = 256


class Scenario:
    """What the lines of a scenario said so far, of one whose schedule may have lines or none."""

    def __init__(self, has_schedule=True):
        self.has_schedule = has_schedule
        self.nodes, self.seed, self.service, self.requests, self.schedule = 0, 0, Service(), [], []
        self.stage, self.tickets = "start", set()

    def line(self, number, text):
        """Takes a line of the text."""
        words = words_of(text)
        is_heading = bool(words) and words[0][0] == "%"
        if self.stage == "%service":
            if not is_heading:
                return self.service.take(number, text)
            self.end_service(number)
        if not is_allowed(text):
            raise Refused(number, "S2")
        if is_skipped(words):
            return None
        code = self.heading(words) if is_heading else self.other(words)
        if code:
            raise Refused(number, code)
        return None

    def end_service(self, number):
        if not self.service.is_whole():
            raise Refused(number, "P14")

    def end(self, number):
        """Takes the end of the text, which would be the line of this number."""
        if self.stage == "%service":
            self.end_service(number)
        if self.stage != "%schedule":
            raise Refused(number, "S3")

    def heading(self, words):
        if words[0] not in FOLLOWING[self.stage]:
            return "S3"
        if words[0] == "%nodes":
            self.nodes = natural(words[1]) if len(words) == 2 else None
            is_right = self.nodes in (1, 3, 5, 7, 9)
        elif words[0] == "%seed":
            self.seed = natural(words[1], 0, 2 ** 32 - 1) if len(words) == 2 else None
            is_right = self.seed is not None
        else:
            is_right = len(words) == 1
        self.stage = words[0]
        return None if is_right else "S4"

    def other(self, words):
        if self.stage == "%requests":
            return self.request(words)
        return self.step(words) if self.stage == "%schedule" else "S3"

    def request(self, words):
        if len(words) < 3:
            return "S5"
        client, sequence, name, arguments = natural(words[0], 1, MOST_CLIENTS), natural(words[1], 1, 1000000), words[2], [signed(word) for word in words[3:]]
        if client is None or sequence is None or not is_name(name) or None in arguments:
            return "S5"
        if name not in self.service.handlers or len(self.service.handlers[name].parameters) != len(arguments):
            return "S6"
        if (client, sequence) in self.tickets:
            return "S7"
        if len(self.requests) >= MOST_REQUESTS:
            return "S11"
        self.tickets.add((client, sequence))
        self.requests.append((client, sequence, name, arguments))
        return None

    def step(self, words):
        if not self.has_schedule:
            return "S8"
        is_keepfail = words[0] == "keepfail" and len(words) == 3 and words[2] in ("kept", "lost")
        if words[0] == "keepfail" and not is_keepfail:
            return "S8"
        is_old = words[0] == "checkpoint" and words[2:] == ["old"]
        is_read = words[0] == "read" and len(words) == 4 and natural(words[2], 1, MOST_CLIENTS) is not None and is_name(words[3])
        if words[0] == "read" and not is_read:
            return "S8"
        numbers = [natural(word) for word in (words[1:2] if is_keepfail or is_old or is_read else words[1:])]
        is_cut = words[0] == "cut" and len(words) > 1
        if None in numbers or not (is_cut or len(FORMS.get(words[0], "-" * len(words))) == len(numbers)):
            return "S8"
        if is_cut and any(limit >= 2 ** 32 for limit in numbers[1:]):
            return "S8"
        if len(self.schedule) >= MOST_LINES:
            return "S9"
        most = {"n": self.nodes, "r": len(self.requests), "l": self.service.lanes, "m": 2 ** 64 - 1}
        if not all(1 <= number <= most[kind] for number, kind in zip(numbers, FORMS.get(words[0], "n"))):
            return "S10"
        if words[0] == "ask" and numbers[0] == numbers[1]:
            return "S10"
        if is_read and words[3] not in self.service.variables:
            return "S10"
        if is_cut and len(numbers) not in (1, 1 + self.service.lanes):
            return "S12"
        if is_old and (self.service.lanes > MOST_OLD_LANES or len(self.service.variables) > MOST_OLD_VARIABLES):
            return "S13"
        self.schedule.append(words)
        return None


def read(text, has_schedule=True):
    """The scenario that a text is. Where it has no schedule, each line of that is refused as one of no form."""
    if len(text) > MOST_BYTES:
        raise Refused(0, "S1")
    scenario, lines = Scenario(has_schedule), lines_of(text)
    for number, line in enumerate(lines, 1):
        scenario.line(number, line)
    scenario.end(len(lines) + 1)
    return scenario
