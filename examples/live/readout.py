"""A start and a readout by the driver of my_branch.py, or by the one that --driver names. The record of the readout goes into EVENTS.json."""
import argparse
import camac
from my_branch import MyBranch

words = argparse.ArgumentParser(description=__doc__)
for name in ("plan", "start_script", "service", "script", "events"):
    words.add_argument(name, metavar=name.upper())
words.add_argument("--driver", help="as mcstd:libhyt1331.so; see docs/LIVE.md")
words.add_argument("--patience", type=float, help="how many seconds to wait for a demand")
args = words.parse_args()
branch = camac.driver(args.driver, args.plan, args.patience) if args.driver else MyBranch(args.plan, args.patience)
print("start:", camac.call(args.plan, args.start_script, args.service, branch).line)
print("readout:", camac.drive(args.plan, args.script, branch, args.events, record=f"{args.events}.json").line)
