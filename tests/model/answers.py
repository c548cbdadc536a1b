"""What each command answers: a status, and the text on standard output."""
from .check import Unchecked, check
from .cluster import World
from .live import trace_of
from .scenarios import read
from .services import read_service
from .states import State, run
from .texts import MOST_BYTES, Refused
from .values import Dice

COUNTER = ["lanes 2", "lock L", "var a on L = 0", "handler add x", "acquire L", "set a = a + x", "let r = a", "release L", "reply r"]


def answered(call):
    """The status and the output of a call that answers a list of lines, or is refused."""
    try:
        lines = call()
    except Refused as refused:
        return 1, str(refused) + "\n"
    except Unchecked as unchecked:
        return 3, str(unchecked) + "\n"
    return 0, "".join(line + "\n" for line in lines)


def ran(text):
    """The world after the run of a scenario."""
    scenario = read(text)
    check(scenario.service)
    world = World(scenario.nodes, scenario.seed, scenario.service, scenario.requests)
    for words in scenario.schedule:
        world.step(words)
    return world


def run_lines(text):
    world = ran(text)
    return world.report + [node.end() for node in world.nodes]


def trace_lines(text):
    return trace_of(ran(text).agreed)


def check_lines(text):
    if len(text) > MOST_BYTES:
        raise Refused(0, "S1")
    service = read_service(text)
    check(service)
    counts = len(service.handlers), len(service.locks), len(service.lock_of), len(service.variables)
    semaphores = " semaphores %d" % len(service.semaphores) if service.semaphores else ""
    return ["checked handlers %d locks %d conditions %d variables %d" % counts + semaphores]


def generated(seed, size):
    """The lines of the scenario that is made up from a seed and a number of rounds."""
    lines = ["%nodes 3", "%%seed %d" % seed, "%service", *COUNTER, "%requests"]
    for turn in range(1, size + 1):
        lines += ["1 %d add %d" % (turn, (seed + turn) % 100), "2 %d add %d" % (turn, (seed + 2 * turn) % 100)]
    lines += ["%schedule", "elect 1", "flush", "flush"]
    dice, leader = Dice(seed, 1), 1
    for turn in range(1, size + 1):
        other = leader % 3 + 1
        lines += ["submit %d %d" % (leader, 2 * turn - 1), "submit %d %d" % (leader, 2 * turn)]
        lines += ["lane %d %d" % (leader, dice.roll() % 2 + 1) for _ in range(12)] + ["lane %d 1" % leader, "lane %d 2" % leader] * 8
        lines += ["cut %d" % leader, "flush", "flush", "flush", "submit %d %d" % (leader, 2 * turn), "deliver %d" % turn, "replay %d" % other]
        if turn % 10 == 3:
            lines.append("checkpoint %d" % other)
        elif turn % 10 == 5:
            lines += ["stop %d" % other, "start %d" % other]
        elif turn % 10 == 0:
            lines += ["elect %d" % other, "flush", "flush"]
            leader = other
    return lines


def soak_lines(seed, size):
    world = ran("\n".join([*generated(seed, size), ""]).encode())
    agreed = world.agreed
    released = sum(line.split(" ")[1] == "released" for line in world.report)
    parts = seed, size, world.done, len(world.sent), len(agreed), released, run(State(world.service), agreed).variables["a"]
    return ["soak %d %d lines %d messages %d known %d released %d a=%d" % parts]


def report(text):
    """The status and the output of `rex run` for a scenario's text."""
    return answered(lambda: run_lines(text))
