"""check: judges scripts, and warns of probable mistakes. `camac-check` is this module alone, without what draws and reports."""
import argparse
import sys
from typing import Any, List

from camac import judge
from camac.commands.running import QUICK, RAW, STATUS, main, refuse_pipes
from camac.output import say
from camac.program import quickest, version
from camac.warn import looks_for_all


def add_to(commands: Any) -> None:
    _fill(commands.add_parser("check", prog="camac-check", help="Judges scripts, and warns of probable mistakes", epilog=STATUS))


def _fill(it: argparse.ArgumentParser) -> None:
    it.add_argument("--version", action=_Version, nargs=0, help="prints the version, whether it is proved, and of which sources and kit it is")
    it.add_argument("plan", metavar="PLAN", help="a plan: a TOML file, or @sample, the built-in plan")
    it.add_argument("scripts", nargs="+", metavar="SCRIPT", help="scripts")
    it.add_argument("--format", choices=judge.FORMATS, default="text", metavar="FORMAT", help="text: lines FILE:LINE: TEXT; json; github: annotations; sarif: SARIF 2.1.0")
    it.add_argument("--json", action="store_const", const="json", dest="format", help="--format json")
    it.add_argument("--strict", action="store_true", help="a warning is status 1, too")
    it.add_argument("--keeps", action="store_true", help="proposes what the loops of a refused script need")
    write = "first puts the least accepted headings into each script, with --keeps what loops need, too"
    it.add_argument("--write", action="store_true", help=write)
    it.set_defaults(do=do, out=None)


class _Version(argparse.Action):
    def __call__(self, parser: argparse.ArgumentParser, *_: Any) -> None:
        from camac.proof import lines

        print(lines(quickest()), end="")
        parser.exit()


def do(args: argparse.Namespace) -> int:
    program = quickest()
    judged = judge.judge(args.plan, args.scripts, program, args.write, args.keeps)
    if args.format != "text":
        judged = judge.advised(judged, program)
    if args.format == "sarif":
        from camac.sarif import sarif

        text = sarif(judged, version(program))
    else:
        text = judge.text_of(judged, args.format)
    say(text)
    if args.format not in ("json", "sarif") and not looks_for_all(program):
        print("camac: this program has no `tell`, so most warnings are not looked for", file=sys.stderr)
    return judge.status(judged, args.strict)


def parse(words: List[str]) -> argparse.Namespace:
    parser = argparse.ArgumentParser(prog="camac-check", epilog=STATUS, formatter_class=QUICK)
    _fill(parser)
    parser.formatter_class = RAW
    args = parser.parse_args(words)
    refuse_pipes(parser, [args.plan, *args.scripts])
    return args


def command() -> int:
    return main(parse)


if __name__ == "__main__":
    sys.exit(command())
