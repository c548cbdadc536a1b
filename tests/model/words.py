"""The words of a command line, as `rex` takes them, and the command that they ask for."""
import os
import sys

from .answers import answered, check_lines, generated, run_lines, soak_lines, trace_lines
from .live import live_lines
from .texts import MOST_BYTES, natural

USAGE, LIVE_USAGE = "usage: rex run|trace|check|gen|soak\n", "usage: rexlive [--words]\n"
SCENARIO = [(0, 2 ** 32 - 1), (1, 1000)]
# the options that a command takes, and the ranges of its numbers
COMMANDS = {"run": (["--workers", "--journal"], []), "trace": ([], []), "check": ([], []), "gen": ([], SCENARIO), "soak": (["--workers"], SCENARIO)}
WORKERS = 1, 16


def number(word, least, most):
    """The number in a range that a word spells, with a plus or leading zeros if it likes, or None."""
    digits = word[1:] if word[:1] == "+" else word
    if not (digits.isascii() and digits.isdigit()):
        return None
    return natural(digits.lstrip("0") or "0", least, most)


def taken(words):
    """The command and its numbers that the words behind the program's name ask for, or None."""
    asked, _ = looked_at(words)
    return asked


def looked_at(words):
    """The same, and where there is none what is wrong with the words."""
    if not words:
        return None, "a command is due"
    if words[0] not in COMMANDS:
        return None, "no command is called `%s`" % words[0]
    options, ranges = COMMANDS[words[0]]
    numbers, workers, journals, rest, options_over = [], [], 0, list(words[1:]), False
    while rest:
        word = rest.pop(0)
        if word == "--":
            numbers, rest, options_over = numbers + rest, [], True
        elif "--workers" in options and word == "--workers" and rest:
            workers.append(rest.pop(0))
        elif "--workers" in options and word.startswith("--workers="):
            workers.append(word[len("--workers="):])
        elif word in options and word == "--journal":
            journals += 1
        else:
            numbers.append(word)
    bad_workers = [word for word in workers if number(word, *WORKERS) is None]
    if bad_workers:
        return None, "`%s` isn't a number of workers, 1 to 16" % bad_workers[0]
    if len(workers) > 1 or journals > 1:
        return None, "`%s` is there twice" % ("--workers" if len(workers) > 1 else "--journal")
    values = [number(word, *limits) for word, limits in zip(numbers, ranges)]
    if len(numbers) != len(ranges) or None in values:
        return None, number_fault(words[0], ranges, numbers, options_over)
    return (words[0], values), None


def number_fault(command, ranges, numbers, options_over):
    """What is wrong with the words of a command that are no options of it."""
    option = next((word for word in numbers if word.startswith("-") and not options_over), None)
    if option == "--workers" and "--workers" in COMMANDS[command][0]:
        return "a number of workers, 1 to 16, is due behind `--workers`"
    if option is not None:
        return "`%s` takes no `%s`" % (command, option)
    if not ranges:
        return "`%s` reads standard input, and takes no `%s`; a file is handed in as `< FILE`" % (command, numbers[0])
    if len(numbers) != len(ranges):
        return "`%s` takes two numbers, N and SIZE, and there %s %d" % (command, "is" if len(numbers) == 1 else "are", len(numbers))
    word, limits, name = next((word, limits, name) for word, limits, name in zip(numbers, ranges, ("N", "SIZE")) if number(word, *limits) is None)
    return "`%s` isn't %s, %d to %d" % (word, name, *limits)


def answer(words, source):
    """The status and the output for the words behind the program's name. `source` reads so many bytes at most."""
    asked = taken(words)
    if asked is None:
        return 2, USAGE
    command, numbers = asked
    if command in ("gen", "soak"):
        lines_of = {"gen": generated, "soak": soak_lines}[command]
        return answered(lambda: lines_of(*numbers))
    return answer_to(source, {"run": run_lines, "trace": trace_lines, "check": check_lines}[command])


def live_answer(words, source):
    """The same for `rexlive`, of which this is one answer of many."""
    if words not in ([], ["--words"]):
        return 2, LIVE_USAGE
    return answer_to(source, lambda text: live_lines(text, by_words=bool(words)))


def answer_to(source, lines_of):
    try:
        text = source(MOST_BYTES + 1)
    except OSError:
        return 4, ""
    return answered(lambda: lines_of(text))


def written(status, output):
    """Writes an output to standard output, and answers the status, or 5 where that failed."""
    try:
        with os.fdopen(1, "wb", closefd=False) as sink:
            sink.write(output.encode())
    except OSError:
        return 5
    return status


def main(words):
    sys.exit(written(*answer(words, lambda most: os.fdopen(0, "rb").read(most))))
