"""What a program with the mode `serve` shows besides."""
from typing import List

from lines import COMMITTED, ONE, SCRIPT, Good, good_case
from longest import MOST_BYTES
from process import Case, Input, Output, Program, Stage, compare
from texts import BAD_MODE, Reason, unprinted

VERSION = "escrowd 1.1\n"
# What a program says that tools/try has built.
UNPROVED_VERSION = "escrowd 1.1 (unproved)\n"
TOO_MANY = """escrowd: unexpected argument '{}' found

  tip: a script is read from standard input, as in 'escrowd run < FILE'

Usage: escrowd <MODE> [--store <PATH>] [--databases <N>] [--sessions <N>]

For more information, try '--help'.
"""
NO_OPTION = """escrowd: unexpected argument '--bogus' found

  tip: to pass '--bogus' as a value, use '-- --bogus'

Usage: escrowd <MODE> [--store <PATH>] [--databases <N>] [--sessions <N>]

For more information, try '--help'.
"""
# A line that is longer than a whole script of `run` may be.
DASHES = "-" * (MOST_BYTES - len("bank.1: COMMIT\n@join\n") + 1)
SERVING_CASES = [
    Case("version unwritten", ("--version",), errors=unprinted(Reason.FULL), status=1, stdout=Output.FULL),
    Case("help unwritten", ("--help",), errors=unprinted(Reason.FULL), status=1, stdout=Output.FULL),
    Case("help unwritten", ("--help",), errors=unprinted(Reason.CLOSED), status=1, stdout=Output.CLOSED),
    Case("bad mode", ("SERVE",), SCRIPT, errors=BAD_MODE, status=2, reads=False),
    Case("a word too many", ("run", "bank.script"), SCRIPT, errors=TOO_MANY.format("bank.script"), status=2, reads=False),
    Case("a word too many", ("serve", "run"), SCRIPT, errors=TOO_MANY.format("run"), status=2, reads=False),
    Case("a word too many", ("serve", "1"), SCRIPT, errors=TOO_MANY.format("1"), status=2, reads=False),
    Case("no option", ("run", "--bogus"), SCRIPT, errors=NO_OPTION, status=2, reads=False),
    good_case(Good(("--databases", "2", "serve"), "serve", 2)),
    good_case(Good(("serve", "--store", "run"), "serve", path="run")),
    Case("one database", ("serve",), SCRIPT, "bank.1> OK committed 0\nscript> ERR 12 line\nscript> ERR 12 line\n", reads=True),
    Case("two databases", ("serve", "--databases", "2"), SCRIPT, "bank.1> OK committed 0\nbank2.1> OK committed 0\nscript> ERR 12 line\n", reads=True),
    Case("nothing", ("serve",), reads=True),
]
# More than `run` may be given, and a transaction that is open over it.
LONG_CASES = [
    Case("a byte too long for run", ("serve",), f"{ONE}@join\n{DASHES}", f"{COMMITTED}script> ERR 12 line\n", reads=True),
    Case("open over 16 MiB", ("serve",), f"bank.1: SAVEPOINT X\n{DASHES}\nbank.1: ROLLBACK TO X\n", stdin=Input.PIPE,
         replies="bank.1> OK savepoint X\nscript> ERR 12 line\nbank.1> OK rolled back to X 0\n"),
]


def version_cases(is_unproved: bool) -> List[Case]:
    """What a program says that is proved, or that tools/try has built."""
    version = UNPROVED_VERSION if is_unproved else VERSION
    return [Case("version", words, SCRIPT, version, reads=False) for words in (("--version",), ("-V",), ("run", "-V"))]


def line_by_line(program: Program, folder: str) -> None:
    """Each line is answered before the next one is sent, also behind more bytes than `run` may be given."""
    with Stage() as stage:
        stage.give_input(Input.PIPE)
        stage.give_output("stdout", Output.KEPT)
        stage.give_output("stderr", Output.KEPT)
        stage.start(program, ("serve",), folder)
        for number in range(1, 101):
            stage.give_lines(ONE, COMMITTED * number)
        stage.give_lines("-- a comment\n" * (MOST_BYTES // 13 + 1), COMMITTED * 100)
        for number in range(101, 201):
            stage.give_lines(ONE, COMMITTED * number)
        compare("the status", 0, stage.end())
        compare("standard error", "", stage.text("stderr"))
