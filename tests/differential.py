"""The plain programs of reference/ beside the proved one: over dumps changed at random and the
golden files; of captures, over those of extract.py. And both beside the definitions, over small
random tables and small random captures with times; the proved one also over random dumps that meet
each reason and each fault."""

import pathlib
import tempfile

import capture_reader as reader
import extract
import golden
import transcript
from checks import built_program, need

import says
from changed import compared
from definition import checked
from plain import PLAIN, PLAIN_OF_CAPTURES, build
from timed import checked as checked_captures

SEED = 1
DUMPS = 600
DUMPS_LONG = 6_000
TABLES = 300
TABLES_LONG = 3_000
RANDOM_DUMPS = 2_000
RANDOM_DUMPS_LONG = 50_000
CAPTURES = 300
CAPTURES_LONG = 3_000


def check(tally, long):
    program = built_program()
    need("rustc", f"it has to build reference/{PLAIN.name}, the plain program")
    with tempfile.TemporaryDirectory() as folder:
        folder = pathlib.Path(folder)
        plain = build(PLAIN, folder)
        transcript.link(plain, folder)
        golden.play(folder, tally)
        dumps = DUMPS_LONG if long else DUMPS
        for command, _, difference in compared(program, plain, folder, dumps, SEED):
            tally.check(f"the plain program beside {command}", difference)
        tables = TABLES_LONG if long else TABLES
        for side, is_plain in (program, False), (plain, True):
            for command, _, problem in checked(
                side, folder, tables, SEED, is_plain, True, tiny=True
            ):
                tally.check(f"the definitions beside {command} of {side.name}", problem)
        dumps = RANDOM_DUMPS_LONG if long else RANDOM_DUMPS
        for what, problem in says.checked(program, dumps, SEED):
            tally.check(f"the definitions beside what a dump says: {what}", problem)
        plain = build(PLAIN_OF_CAPTURES, folder)
        # The plain program takes times the wrong way round.
        backwards = (reader.BACKWARDS,)
        cases = (case for case in extract.cases_of(tally) if case.answer.errors != backwards)
        extract.check_cases(plain, cases, tally, extract.without_notes)
        captures = CAPTURES_LONG if long else CAPTURES
        for side, is_plain in (program, False), (plain, True):
            for command, _, problem in checked_captures(side, captures, SEED, is_plain):
                tally.check(f"the moments beside {command} of {side.name}", problem)
