"""Cases: inputs of the program that are made by a seed, and the subcommands that they are given to."""
from __future__ import annotations

from random import Random
from typing import Callable, List, NamedTuple, Tuple

from oracle.maker import edges
from oracle.maker.answers import make_answers, make_changed_answers, make_event_file
from oracle.maker.limits import make_limit
from oracle.maker.plans import make_faulty_plan, make_plan
from oracle.maker.scripts import make_script
from oracle.reader.engines import Inputs, checked
from oracle.reader.plan import Plan, read_plan, sample_plan
from oracle.reader.refusals import EVENT_FILE_LIMIT, TEXT_LIMIT, Refused

STEPS_OF_A_RUN = 3_000
# One case in this number has 1,000,000 answers, and one has more cycles with X = 0 than an event counts.
ROUND = 2_000
MISSED = b"cdlam adc 1 1 5 12\nservice adc within 196611 cycles event 0 words { for i = 1 to 65535 { cclc adc } cclc adc }\n"


class Case(NamedTuple):
    inputs: Inputs
    commands: Tuple[str, ...]


def make_inputs(random: Random, make: Callable[[Random, Plan], bytes] = make_script) -> Inputs:
    """A plan, and a script for it."""
    text = None if random.random() < 0.35 else make_plan(random)
    return Inputs(text, make(random, sample_plan() if text is None else read_plan(text)))


def make_edge_inputs(random: Random) -> Inputs:
    return Inputs(edges.PLAN, edges.make_edge(random))


def script_case(random: Random) -> Case:
    """A plan, a script for it, and answers if it is accepted."""
    return played(random, make_inputs(random))


def edge_case(random: Random) -> Case:
    return played(random, make_edge_inputs(random))


def played(random: Random, inputs: Inputs) -> Case:
    """The script is judged, and played if it is accepted."""
    commands = ["check", "bounds" if random.random() < 0.4 else "costs"]
    try:
        checker = checked(inputs)
    except Refused:
        return Case(inputs, (*commands, *(["run"] if random.random() < 0.03 else [])))
    if any(cost.steps > STEPS_OF_A_RUN for cost in checker.costs):
        return Case(inputs, tuple(commands))
    answers = make_answers(random, checker, STEPS_OF_A_RUN)
    if random.random() < 0.35:
        answers = make_changed_answers(random, answers)
    commands.append("drive" if random.random() < 0.2 else "run")
    return Case(inputs._replace(answers=answers), tuple(commands))


def plan_case(random: Random) -> Case:
    return Case(Inputs(make_faulty_plan(random)), ("plan",))


def events_case(random: Random) -> Case:
    return Case(Inputs(file=make_event_file(random)), ("events",))


def limit_case(random: Random) -> Case:
    return Case(Inputs(None, make_limit(random)), ("check", "bounds", "costs"))


def long_case(random: Random) -> Case:
    """Inputs at the limit of bytes, or one past it."""
    more = random.choice((0, 1))
    how = random.randrange(3)
    if how == 0:
        return Case(Inputs(b"#" * (TEXT_LIMIT + more)), ("plan",))
    if how == 1:
        return Case(Inputs(None, b" " * (TEXT_LIMIT - 1 + more) + b"#"), ("check", "bounds", "costs", "run"))
    return Case(Inputs(file=b"CAMACEV2" + bytes(EVENT_FILE_LIMIT - 7)), ("events",))


def many_answers(random: Random) -> Case:
    """1,000,000 answers to demands that call nothing, and one more line."""
    text = b"cdlam adc 1 1 5 12\nservice adc within 0 cycles event 0 words {}\n"
    lines = b"0 0 000000 0 000000\n" * 1_000_000
    return Case(Inputs(None, text, lines + random.choice((b"\n", b"0", b"0 0 000000 0 000004\n"))), ("run",))


def many_missed(random: Random) -> Case:
    """A service with more X = 0 than the event file counts."""
    count = random.choice((65_534, 65_536, 65_537))
    return Case(Inputs(None, b"var i\n" + MISSED, b"0 0 000000 0 000004\n" + b"0 1 000000 0 000000\n" * count), ("check", "run"))


KINDS: List[Tuple[int, Callable[[Random], Case]]] = [(50, script_case), (18, edge_case), (14, plan_case), (13, events_case), (5, limit_case)]


def make_case(seed: str, number: int) -> Case:
    """The case of this number. The same seed makes the same case."""
    random = Random(f"{seed}/{number}")
    rare = {11: many_answers, 13: many_missed}.get(number % ROUND)
    if rare is None and number % (ROUND // 20) == 7:
        rare = long_case
    if rare is None:
        rare = random.choices([it for _, it in KINDS], [weight for weight, _ in KINDS])[0]
    return rare(random)
