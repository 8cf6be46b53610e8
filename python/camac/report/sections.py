"""The parts of the page of a run, from its head to the checks."""
import os
from typing import Dict, List, Optional, Sequence, Tuple, Union

from camac import functions
from camac.drive import File
from camac.values import Body, Ending, Plan, Response, Service
from camac.pictures.bounds import draw_bounds
from camac.pictures.costs import draw_calls, draw_costs
from camac.pictures.maps import draw_pairs, draw_places
from camac.pictures.plan import draw_plan
from camac.pictures.response import draw_response
from camac.pictures.spectra import BINS, ZOOMED, View, groups_of
from camac.numbers import greatest, total
from camac.pictures.strips import draw_strip
from camac.pictures.svg import count, escape, share
from camac.pictures.timeline import draw_run
from camac.report.page import KEYS, Cell, Column, Row, figure, header, panels, region_table, table
from camac.runs import LONGEST, REASONS, UNFINISHED, Inputs, Run, Served
from camac.texts import hashed, source_lines

SECTIONS = {
    "bounds": "Bounds", "late": "How late", "cost": "Cost by line", "plan": "Plan", "run": "Run", "histograms": "Histograms", "services": "Services",
    "checks": "Checks",
}
ENDS = {
    Ending.ENDED: "the answers were used up at a demand",
    Ending.SHORT: "the answers were used up inside a service, which left no event",
    Ending.OVERRUN: "a wait that the plan does not permit: the run stopped",
    Ending.REFUSED: "an answer that the program could not take: the run stopped",
}
# The strips that are shown; of the services, the first ones and those with most missed cycles, then most cycles.
MOST_STRIPS, FIRST_SERVICES, WORST_SERVICES = 6, 150, 50
NO_DEMAND_WAS_SERVED = (
    "No demand called a service. Is the look-at-me of the module enabled (F26), the demand output on, and the GL bit the one of the plan?"
)


class Facts:
    """The contents of the page. `bodies` and `responses` are None if the program does not print the cost of lines, or how late services
    can be."""

    def __init__(
        self, inputs: Inputs, version: str, plan: Plan, services: List[Service], bodies: Optional[List[Body]], responses: Optional[List[Response]], run: Run
    ) -> None:
        self.inputs, self.version, self.plan, self.services, self.bodies, self.responses, self.run = inputs, version, plan, services, bodies, responses, run
        self.source = source_lines(inputs.script)

    def service(self, gl: int) -> Optional[Service]:
        return next((it for it in self.services if it.gl == gl), None)


def base_name(path: File) -> str:
    return os.path.basename(os.fsdecode(path))


def head(facts: Facts) -> str:
    """The script's name, what the page is made of, and the way to its sections."""
    names = zip(("plan", "script", "answers" if facts.run.has_listing else "events"), facts.inputs)
    files = "; ".join(f"{word} <code>{escape(base_name(path))}</code> {_digest(path)}" for word, path in names)
    links = "".join(f'<a href="#{name}">{word}</a>' for name, word in SECTIONS.items())
    text = f'<p class="mute">{files} (the first digits of each SHA-256); {escape(facts.version)}</p><nav>{links}</nav>'
    return header(base_name(facts.inputs.script), [text])


def _digest(path: File) -> str:
    """The first 12 digits of the SHA-256 of a file."""
    if os.fspath(path) in ("@sample", b"@sample"):
        return "(built in)"
    total = hashed(is_long=os.path.getsize(path) > 1 << 20)
    with open(path, "rb") as file:
        for piece in iter(lambda: file.read(1 << 20), b""):
            total.update(piece)
    return str(total.hexdigest()[:12])


def tiles(facts: Facts) -> str:
    run = facts.run
    cycles, waits, missed = total(run.cycles), total(run.waits), total(run.no_x)
    shown = [(len(run.gl), "events", "")]
    if run.has_cycles:
        shown.append((cycles, "cycles, waits counted", ""))
    if run.has_listing:
        shown.append((waits, f"waits, {share(waits, cycles)} of the cycles", ""))
    shown.append((total(run.words), "event words", ""))
    if run.has_cycles:
        shown.append((missed, "cycles with X = 0", "bad" if missed else ""))
    if run.has_listing:
        shown.append((total(run.no_q), "cycles with Q = 0", ""))
        shown.append((total(run.of_transfers), "Q = 0 of transfers", ""))
    if run.idle:
        shown.append((run.idle, "demands without a service", ""))
    if run.left:
        shown.append((run.left, "services that were abandoned", "bad"))
    drawn = (f'<div class="tile"><b class="{kind}">{value:,}</b><span>{word}</span></div>' for value, word, kind in shown)
    return f'<div class="tiles">{"".join(drawn)}</div>'


def last_line(facts: Facts) -> str:
    """How the run ended, and what that means."""
    run = facts.run
    if run.end:
        meaning, is_good = ENDS[run.end.how], run.end.how is Ending.ENDED
    elif run.fault:
        meaning, is_good = "the event file has a wrong field there; the events before it are shown", False
    else:
        meaning, is_good = "read from an event file: nothing is known of waits, Q, addresses and locks", True
    unknown = "" if run.contradictions is not None else '<p class="mute">What contradicts the plan is not in an event file: answers show it, and the record of a live run has it.</p>'
    out = f'<p>The run: <b class="{"good" if is_good else "bad"}">{escape(run.last_line())}</b> ({meaning}).</p>'
    if run.idle and not len(run.gl) and not run.kept:
        out += f'<p class="bad">{NO_DEMAND_WAS_SERVED}</p>'
    bad = [*(it.text for it in run.checks if not it.agrees), *(it.text() for it in run.contradictions or ())]
    return out + unknown + "".join(f'<p class="bad">{escape(it)}</p>' for it in bad)


def bounds(facts: Facts) -> str:
    return (
        '<h2 id="bounds">What was promised, and what was seen</h2><p>The checker accepted the script: whatever the modules answer, no '
        "service is longer than these bounds, as long as auxiliary controllers keep to the waits of the plan.</p>"
        + figure(draw_bounds(facts.services, facts.run))
    )


def late(facts: Facts) -> str:
    """How late each service can be, and how late it was."""
    out, run = ['<h2 id="late">How late</h2>'], facts.run
    if facts.responses is None:
        return out[0] + '<p class="mute">This program has no <code>response</code>: how late each service can be is not known.</p>'
    out.append(
        "<p>From a look-at-me to the end of its service no more cycles pass than these, whatever the modules answer, if modules and driver do "
        "what RESPONSE.md asks of them: that modules keep the given rates (<code>--every</code>), for one.</p>"
    )
    out += [f'<p class="bad">No number from bit {it.gl} on: {escape(one.text())}.</p>' for it in facts.responses for one in it.unkept]
    out += [f"<p>{escape(it.name)} may clear its look-at-me twice: one that comes between is lost.</p>" for it in facts.responses if it.clears_twice]
    out.append(figure(draw_response(facts.responses, run)))
    if not run.has_listing:
        return "".join(out) + '<p class="mute">An event file does not show how late a service was: answers do.</p>'
    if any(it.broken for it in run.late.values()):
        out.append(
            "<p>A rate was broken: in a stretch of look-at-mes without a pause a service was called more often than its rate allows, or twice "
            "without a given rate. Services that ended later in the stretch are left out. A listing shows a pause only if an operation "
            "called no service, or one of a greater bit.</p>"
        )
    return "".join([*out, _late_table(facts.responses, run)])


def _late_table(responses: List[Response], run: Run) -> str:
    """A line for each service: how late it can be, and what was seen."""
    rows: List[Row] = []
    for response in responses:
        observed, broken = run.late[response.gl], ""
        if observed.broken:
            name, call, elapsed, number = observed.broken
            broken = f"{name}: call {call:,} after {count(elapsed, 'cycle')}, service {number:,}"
        can_be = [_number(number, "-") for number in (response.start, response.end, response.longest)]
        seen = [_number(number if observed.count else None, "") for number in (observed.most, observed.number)]
        rows.append((response.name, response.gl, _number(response.every, "once"), *can_be, *seen, observed.count, observed.left_out, broken))
    titles = "GL,every,start,end,longest stretch,seen,in service,services,left out".split(",")
    return table([Column("service", True), *map(Column, titles), Column("a rate was broken first by", True)], rows)


def _number(number: Optional[int], word: str) -> Union[int, str]:
    """The number, or a word if there is none."""
    return word if number is None else number


def cost(facts: Facts) -> str:
    out = ['<h2 id="cost">Cost by line</h2>']
    if facts.bodies is None:
        return out[0] + '<p class="mute">This program has no <code>costs</code>: the cost of each line is not known.</p>'
    out.append("<p>Where the cycles of the bound come from. A dead time is the cycles times what one takes on your branch.</p>")
    seen = facts.run.seen if facts.run.has_cycles else {}
    for body in facts.bodies:
        of_bit = seen.get(body.gl) if body.gl else None
        out.append(figure(draw_costs(body, facts.source, of_bit.cycles if of_bit else None, facts.bodies, has_calls=False)))
        drawn = draw_calls(body, facts.source, facts.bodies)
        out += [f"<details><summary>{escape(title)}</summary>{figure(lines)}</details>" for title, lines in drawn]
    return "".join(out)


def plan(facts: Facts) -> str:
    return '<h2 id="plan">The plan</h2>' + figure(draw_plan(facts.plan, facts.services, facts.run))


def run_section(facts: Facts) -> str:
    out = ['<h2 id="run">The run</h2>', figure(draw_run(facts.run, facts.services)), _kinds_table(facts)]
    if facts.run.kept:
        out += ["<h3>Some services cycle by cycle</h3>", *_strips(facts)]
    if facts.run.commands:
        out.append("<h3>Commands that were sent</h3>")
        if (UNFINISHED, 0) in facts.run.kept:
            out.append('<p class="mute">Those of the service that did not come to its end are counted here, and nowhere else.</p>')
        out.append(_commands_table(facts))
    return "".join(out)


def _kinds_table(facts: Facts) -> str:
    """A line for each service of the script: bounds, and what was seen."""
    run, seen, rows = facts.run, facts.run.seen, []
    for service in facts.services:
        of_bit = seen.get(service.gl)
        cycles = (of_bit.cycles.least, of_bit.cycles.mean, of_bit.cycles.most) if of_bit and run.has_cycles else ("", "", "")
        waits, words = (of_bit.waits / of_bit.cycles.count, of_bit.words.mean) if of_bit else ("", "")
        row = (service.name, service.gl, of_bit.cycles.count if of_bit else 0, *cycles, service.cycles, service.annotated_cycles)
        rows.append((*row, waits, words, service.words, *((of_bit.no_q, of_bit.of_transfers, of_bit.no_x) if of_bit else (0, 0, 0))))
    titles = "GL,events,cycles least,mean,most,bound,annotated,waits mean,words mean,words bound,Q = 0,Q end,X = 0".split(",")
    columns = [Column("service", True), *map(Column, titles)]
    return _known_table(run, columns, rows)


# The columns that an event file does not have, and those that one of version one does not have either.
OF_LISTINGS = ("waits mean", "waits", "in a lock", "Q = 0", "Q end")
OF_CYCLES = ("cycles least", "mean", "most", "cycles", "of bound", "X = 0")


def _known_table(run: Run, columns: List[Column], rows: Sequence[Row]) -> str:
    """The table without the columns of which nothing is known."""
    unknown = (() if run.has_listing else OF_LISTINGS) + (() if run.has_cycles else OF_CYCLES)
    kept = [k for k, it in enumerate(columns) if it.title not in unknown]
    return table([columns[k] for k in kept], [[row[k] for k in kept] for row in rows])


def _strips(facts: Facts) -> List[str]:
    """The services that are shown cycle by cycle, each once: what missed X or did not end first, then those nearest to their bounds."""
    reasons: Dict[int, List[str]] = {}
    for (why, _), kept in facts.run.kept.items():
        reasons.setdefault(kept.number, []).append(REASONS[why])

    def order(pair: Tuple[Tuple[str, int], Served]) -> Tuple[bool, float, int]:
        service = facts.service(pair[1].gl)
        return pair[0][0] == LONGEST, -pair[1].cycles / max(service.cycles if service else 1, 1), pair[1].number

    chosen: Dict[int, Served] = {}
    for _, kept in sorted(facts.run.kept.items(), key=order):
        if len(chosen) < MOST_STRIPS:
            chosen.setdefault(kept.number, kept)
    last = list(chosen)[-1]
    return [figure(draw_strip(it, facts.service(it.gl), ", ".join(reasons[at]), has_legend=at == last)) for at, it in chosen.items()]


def _commands_table(facts: Facts) -> str:
    rows = []
    for command, sent in sorted(facts.run.commands.items()):
        crate, station, sub_address, function = command
        order = ((crate * 32 + station) * 16 + sub_address) * 32 + function
        where = Cell(order, f"{crate} {station} {sub_address} F{function}")
        there = facts.plan.type_at(crate, station)
        words = sent.words
        numbers = (words.least, words.mean(), words.greatest) if words.count else ("", "", "")
        name = there.name if there else "controller"
        rows.append((where, name, functions.name(function), sent.count, sent.no_q, sent.no_x, sent.waits, *numbers))
    texts = [Column(title, True) for title in ("crate station A F", "type", "meaning")]
    return table([*texts, *map(Column, "cycles,Q = 0,X = 0,waits,word least,mean,most".split(","))], rows)


def histograms(facts: Facts) -> str:
    run = facts.run
    out = ['<h2 id="histograms">Histograms</h2><p class="mute hint">Drag over a spectrum to see a part of it; double-click to see all again. ' + KEYS + "</p>"]
    for title, groups in groups_of(run, facts.plan, facts.services, ZOOMED, View(most=run.asked.bins or BINS)):
        out += [f"<h3>{escape(title)}</h3>", panels(groups)]
    if run.asked.regions:
        from camac.pictures import regions

        out += ["<h3>Regions</h3>", region_table(regions.measured(run.channels)), f'<p class="mute">{regions.FOOT}</p>']
    if run.asked.pair:
        out += ["<h3>Two numbers of an event</h3>", figure(draw_pairs(run.channels))]
    out.append("<h3>By the place of the word in its event</h3>")
    out.append('<p class="mute">Where a script leaves words out, one place holds words of several channels.</p>')
    return "".join(out + [figure(draw_places(run, it)) for it in facts.services])


def services(facts: Facts) -> str:
    """The table of the services of the run: the first ones, and the worst ones."""
    run, many, rows = facts.run, len(facts.run.gl), []
    chosen = sorted({*greatest(WORST_SERVICES, run.no_x, run.cycles), *range(min(many, FIRST_SERVICES))})
    for k in chosen:
        service = facts.service(run.gl[k])
        part = Cell(round(run.cycles[k] / max(service.cycles, 1), 4), share(run.cycles[k], service.cycles)) if service else ""
        row = (k + 1, service.name if service else f"GL {run.gl[k]}", run.cycles[k], part, run.waits[k], run.locked[k])
        rows.append((*row, run.no_q[k], run.of_transfers[k], run.no_x[k], run.words[k]))
    titles = "cycles,of bound,waits,in a lock,Q = 0,Q end,X = 0,words".split(",")
    columns = [Column("event"), Column("service", True), *map(Column, titles)]
    out = ['<h2 id="services">Services</h2>']
    if many > len(chosen):
        text = f"The first {FIRST_SERVICES}, and the {WORST_SERVICES} with most cycles with X = 0, then most cycles, of {many:,}."
        out.append(f'<p class="mute">{text}</p>')
    out.append(_known_table(run, columns, rows) if rows else '<p class="mute">none</p>')
    return "".join(out)


def checks(facts: Facts) -> str:
    verdicts = {True: '<td class="t good">agrees</td>', False: '<td class="t bad">DIFFERS</td>'}
    rows = "".join(f'<tr>{verdicts[it.agrees]}<td class="t">{escape(it.text)}</td></tr>' for it in facts.run.checks)
    return (
        f'<h2 id="checks">Checks of this page</h2><table class="checks"><tbody>{rows}</tbody></table><p class="mute">The bounds hold for '
        "every list of answers, as long as auxiliary controllers keep to the waits of the plan and the program is the proved one; "
        f"this was {escape(facts.version)}. What was seen is of this run alone.</p>"
    )


# All parts, in their order.
PARTS = (tiles, last_line, bounds, late, cost, plan, run_section, histograms, services, checks)
