"""watch: a page that follows an event file."""
import argparse
import os
import threading
from typing import Any, Union

from camac.commands.running import refuse_pipes
from camac.export import Given
from camac.output import say

ABOUT = """\
The page has events and their rate, live and dead time as the record has them measured, cycles of each service beside its bound, spectra of named
words, cycles with X = 0 and the last events. Of a folder it lists the runs, each with a page. It is there for browsers of this computer alone, until
Ctrl-C. Nothing is written.

An alarm is silence=SECONDS (no event for so long), x0=CYCLES (more with X = 0 in 10 s), plan=TIMES (what the record has that the plan does not
describe came more often), rate=EVENTS or rate:SERVICE=EVENTS (fewer a second).

Status: 1 plan or script is refused; 2 usage; 3 a file or the program failed, or the port is in use."""


def add_to(commands: Any) -> None:
    parser = commands.add_parser("watch", help="Shows a live run in a browser", epilog=ABOUT)
    parser.add_argument("events", metavar="EVENTS|FOLDER", help="an event file, which may grow, and need not be there yet; or a folder with records of runs")
    parser.add_argument("--port", type=int, default=8080, metavar="PORT", help="the port on 127.0.0.1 (8080); 0 is any that is free")
    parser.add_argument("--plan", metavar="PLAN", help="the plan of the run, with --script")
    parser.add_argument("--script", metavar="SCRIPT", help="its script")
    parser.add_argument("--words", metavar="TOML", help="what the words of events are")
    parser.add_argument("--record", metavar="JSON", help="the record of the run, which has plan and script; it need not be there yet")
    parser.add_argument("--over", metavar="EVENTS", help="draws the spectra of another run of this script as lines over these, as draw words does")
    parser.add_argument("--alarm", action="append", default=[], metavar="ALARM", help="what the page tells in red, and by a sound if you like; as often as you like")
    parser.set_defaults(do=do, parser=parser, out=None)


def do(args: argparse.Namespace) -> int:
    from camac.follow import read_alarm
    from camac.watch import RunList, Server, Watch

    if not 0 <= args.port <= 65_535:
        args.parser.error(f"--port is 0 to 65,535, not {args.port}")
    if (args.plan is None) != (args.script is None):
        args.parser.error("--plan and --script belong together")
    refuse_pipes(args.parser, [it for it in (args.plan, args.script, args.words) if it is not None])
    try:
        alarms = [read_alarm(it) for it in args.alarm]
    except ValueError as why:
        args.parser.error(str(why))
    watch: Union[Watch, RunList]
    if os.path.isdir(args.events):
        if args.plan or args.record:
            args.parser.error("a folder has its records; --plan, --script and --record are of an event file")
        watch = RunList(args.events, args.words, lambda given: Watch(given, alarms, args.over))
    else:
        watch = Watch(Given(args.events, args.plan, args.script, args.words, args.record), alarms, args.over)
    stop = threading.Event()
    with Server(watch, args.port) as server:
        say(f"{server.address()}\n")
        follower = threading.Thread(target=watch.follow, args=(stop,), daemon=True)
        follower.start()
        try:
            server.serve_forever(poll_interval=1.0)
        finally:
            stop.set()
            follower.join()
    return 0
