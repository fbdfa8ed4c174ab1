"""What a terminal that is standard error is sent while the sessions of long phases run."""
import re
from typing import Dict, List, Sequence

from process import Input, Output, Program, Stage, compare, expect, shortened

# Two sessions of the second database, over and over: a phase that takes long enough to be drawn, and so many statements.
ASKED, STATEMENTS = "bank2.1: COMMIT\nbank2.2: COMMIT\n" * 200_000, 400_000
# The variables of a terminal that can draw, and of those that can't.
XTERM = {"TERM": "xterm"}
CAN_NOT_DRAW: List[Dict[str, str]] = [{"TERM": "dumb"}, {"TERM": ""}, {}]
IDLE = "bank: served 0 granted 0 broken 0 commits 0"
BUSY = r"bank2: served \d+ granted 0 broken 0 commits \d+"
# In what order a terminal is told to keep long lines within their row, to clear what stands behind a line, and to go up and erase.
BEGIN, CLEAR, END, ERASE = r"\x1b\[\?7l", r"\x1b\[K\n", r"\x1b\[\?7h", r"\x1b\[J"


def drawings(lines: Sequence[str]) -> str:
    """The pattern of what is sent: nothing where a phase is short, or lines that are drawn, drawn over, and erased."""
    drawn = BEGIN + "".join(line + CLEAR for line in lines) + END
    up = rf"\r\x1b\[{len(lines)}A"
    return f"({drawn}({up}{drawn})*{up}{ERASE})?"


def sent(program: Program, mode: str, databases: int, script: str, folder: str, variables: Dict[str, str]) -> str:
    """What a terminal is sent while a script is served to its end."""
    with Stage() as stage:
        stage.give_input(Input.FILE, script.encode())
        stage.give_output("stdout", Output.NOWHERE)
        stage.give_output("stderr", Output.TERMINAL)
        stage.start(program, (mode, "--databases", str(databases)), folder, variables)
        compare("the status", 0, stage.end())
        return stage.text("stderr")


def expect_drawn(shown: str, lines: Sequence[str]) -> None:
    """Refuses what isn't a drawing of these lines."""
    expect(re.fullmatch(drawings(lines), shown) is not None, f"the terminal was sent {shortened(shown)}")


def draws(program: Program, folder: str) -> None:
    """`free` draws how far a phase is, and erases it; `run` draws nothing."""
    head = [rf"phase 1: \d+ of {STATEMENTS} statements"]
    expect_drawn(sent(program, "free", 2, ASKED, folder, XTERM), [*head, IDLE, BUSY])
    compare("what `run` sent", "", sent(program, "run", 2, ASKED[:260_000], folder, XTERM))


def draws_what_fits(program: Program, folder: str) -> None:
    """No more lines are drawn than the terminal has but one: 10 if it isn't told how many. A terminal that can't draw is sent nothing."""
    head = rf"phase 1: \d+ of {STATEMENTS} statements"
    others = [rf"bank{number}: served 0 granted 0 broken 0 commits 0" for number in range(3, 17)]
    expect_drawn(sent(program, "free", 16, ASKED, folder, XTERM), [head, IDLE, BUSY, *others[:5], "and 9 more databases"])
    expect_drawn(sent(program, "free", 16, ASKED, folder, {**XTERM, "LINES": "24"}), [head, IDLE, BUSY, *others])
    for variables in CAN_NOT_DRAW:
        compare(f"what was sent with {variables}", "", sent(program, "free", 2, ASKED, folder, variables))


# Statements of each of three databases in each of two phases, and the rows of a table that a fourth phase reads again and again. That takes several of
# the half seconds between two drawings, also on a fast machine.
SERVED, ROWS, READS = 12_000, 4_000, 1_500


def draws_all_that_was_served(program: Program, folder: str) -> None:
    """Of each database is drawn what it has served in all phases."""
    phase = "".join(f"{name}.1: COMMIT\n" * SERVED for name in ("bank", "bank2", "bank3")) + "@join\n"
    rows = "bank2.1: CREATE TABLE T (ID INTEGER PRIMARY KEY, N INTEGER RESERVABLE)\n"
    rows += "".join(f"bank2.1: INSERT INTO T VALUES ({it}, 0)\n" for it in range(ROWS))
    shown = sent(program, "free", 3, f"{phase * 2}{rows}@join\n" + "bank2.2: SELECT * FROM T\n" * READS, folder, XTERM)
    others = [f"{name}: served {2 * SERVED} granted 0 broken 0 commits {2 * SERVED}" for name in ("bank", "bank3")]
    first = 2 * SERVED + 1 + ROWS
    drawn = re.findall("".join(line + CLEAR for line in (rf"phase 4: \d+ of {READS} statements", others[0],
                                                         rf"bank2: served (\d+) granted 0 broken 0 commits {2 * SERVED}", others[1])), shown)
    expect(len(drawn) == shown.count("phase 4: ") > 0, f"the terminal was sent {shortened(shown)}")
    expect(all(first <= int(it) <= first + READS for it in drawn), f"bank2 has served {drawn}")
