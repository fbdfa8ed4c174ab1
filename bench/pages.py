"""What the tools of the benchmark share: tables as the pages have them, and where these stand in bench/README.md."""
import datetime
import os
import re
import sys
import textwrap
from pathlib import Path
from typing import List, Sequence, Tuple

PAGE = Path(__file__).resolve().parent / "README.md"
# The load of the machine before anything was measured.
LOAD = os.getloadavg()[0]


def lined(rows: Sequence[Sequence[str]]) -> List[str]:
    """Returns the lines of a table, whose first row is its head."""
    cells = [rows[0], ["---"] * len(rows[0]), *rows[1:]]
    return [f"| {' | '.join(row)} |" for row in cells]


def short(value: float) -> str:
    """Returns a number with three digits or so."""
    return f"{value:.2f}" if abs(value) < 10 else f"{value:.1f}" if abs(value) < 100 else f"{value:,.0f}"


def of_runs(which: str, count: int, name: str = "run") -> str:
    """Returns which of several runs a figure is, as `the least of 3 runs`; or `one run`, if there was one alone."""
    return f"one {name}" if count == 1 else f"{which} of {count} {name}s"


def heading(how: str) -> List[str]:
    """Returns what stands before a table: when it was measured, on what, and how."""
    found = re.search(r"(?m)^model name\s*: (.*)$", Path("/proc/cpuinfo").read_text(encoding="utf-8"))
    where = f"{os.cpu_count()} processors ({found[1] if found else 'unknown'}), with a load of {LOAD:.1f} before it"
    return [*textwrap.wrap(f"Measured on {datetime.date.today().isoformat()} on {where}; {how}:", 100), ""]


def parted(mark: str) -> Tuple[str, str, str]:
    """Returns the page up to the text between the two comments of a mark, this text, and the rest."""
    before, begin, rest = PAGE.read_text(encoding="utf-8").partition(f"<!-- {mark} -->\n")
    noted, end, after = rest.partition(f"<!-- /{mark} -->\n")
    if not end:
        sys.exit(f"{PAGE} lacks the comments of {mark}")
    return before + begin, noted, end + after


def note(mark: str, lines: Sequence[str]) -> None:
    """Writes lines to the page, between the two comments of a mark."""
    before, _, after = parted(mark)
    PAGE.write_text(before + "\n".join(lines) + "\n" + after, encoding="utf-8")


def noted_rows(mark: str) -> List[List[str]]:
    """Returns the cells of the table that the page has between the two comments of a mark."""
    return [[cell.strip() for cell in line.strip("|").split("|")] for line in parted(mark)[1].splitlines() if line.startswith("|")]
