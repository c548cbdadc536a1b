"""The rules of Rex once more, in Python: a second opinion, and a quick draft.

python3 tests/model WORDS.. answers as `rex` has to with these words and this standard input: `run`, `trace`, `check`, `gen` or
`soak`. It was written from the rules that docs/LANGUAGE.md, docs/SCENARIOS.md and docs/CLUSTER.md tell, and not from the program:
a plain interpreter that keeps whole states and whole lists, replays on one thread, and asks for nothing but Python 3.

tests/compare-models, tests/keepfails and tests/live-traces run it beside the program, tests/refusals tries it on a table, and
`bin/rex --draft` and `bin/rexlive --draft` are it, and scripts/draft-node runs its node as a process. Nothing is proved of it.

texts, values: lines, words, names, arithmetic. services, check, scenarios: the readers, with their codes. states: events and what
they do. cluster: nodes, messages and the schedule. live: lanes as threads, under one lock or by lock words, of whose histories it draws one. answers, words: what a command
answers, and the words that ask for it."""
from .answers import report
from .cluster import World
from .scenarios import read
from .states import Event, State
from .values import OPERATORS, Dice

__all__ = ["Dice", "Event", "OPERATORS", "State", "World", "read", "report"]
