from camac.archive import Runs, open_runs
from camac.arrays import EventArrays, event_arrays
from camac.drive import Answer, Branch, DriveFault, ProgramFault, ProtocolFault, Refused, TimeFault, UsageFault
from camac.drive import drive, find_program
from camac.drivers import driver
from camac.events import Event, EventFileFault, Whole, read_events, whole, whole_size
from camac.library import play
from camac.loops.proposals import Proposal, Proposals
from camac.loops.search import propose
from camac.printed import parse_listing
from camac.record import Record, Recording, read_record
from camac.subcommands import bounds, call, check, costs, plan, response, run
from camac.surveys import Survey, survey
from camac.values import Body, Command, Contradiction, Cost, Crate, Cycle, Declaration, Demand, Ending, Harm, Heading, Lock, ModuleType, Move, Plan, Response, Row, RunEnd, Service, Station, Unkept, Unlock
from camac.warn import Warned, warnings
from camac.word_file import WordsFault, read_words
from camac.word_sources import words_of_script
from camac.words import Column, Field, Words

__all__ = [
    "Answer", "Body", "Branch", "Column", "Command", "Contradiction", "Cost", "Crate", "Cycle", "Declaration", "Demand", "DriveFault", "Ending", "Event",
    "EventArrays", "EventFileFault", "Field", "Harm", "Heading", "Lock", "ModuleType", "Move", "Plan", "ProgramFault", "Proposal", "Proposals",
    "ProtocolFault", "Record", "Recording", "Refused", "Response", "Row", "RunEnd", "Runs", "Service", "Station", "Survey", "TimeFault", "Unkept",
    "Unlock", "UsageFault", "Warned", "Whole", "Words", "WordsFault", "bounds", "call", "check", "costs", "drive", "driver", "event_arrays",
    "find_program", "open_runs", "parse_listing", "plan", "play", "propose", "read_events", "read_record", "read_words", "response", "run", "survey",
    "warnings", "whole", "whole_size", "words_of_script",
]
