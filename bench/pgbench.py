"""What bench/postgres and bench/proxy share: pgbench and psql, processor time, and the picture."""
import os
import re
import subprocess
import sys
from pathlib import Path
from typing import Dict, List, NamedTuple, Sequence, Tuple

TICKS = os.sysconf("SC_CLK_TCK")


def stat(process: int) -> List[int]:
    """Returns the ticks of processor time of a process: its own in user mode and in the system, and those of the children that have ended."""
    words = Path(f"/proc/{process}/stat").read_text(encoding="ascii").rsplit(")", 1)[1].split()
    return [int(it) for it in words[11:15]]


def seconds_with_children(first: int, others: Sequence[int]) -> float:
    """Returns the processor seconds of a process, of its children that have ended, and of those that run."""
    ticks = sum(stat(first))
    for it in others:
        try:
            ticks += sum(stat(it))
        except FileNotFoundError:
            pass  # it has ended since, and counts among those
    return ticks / TICKS


def psql(dsn: str, *statements: str) -> List[str]:
    """Runs statements that have to succeed, and returns what they print."""
    words = ["psql", "-XAqt", "-v", "ON_ERROR_STOP=1", "-d", dsn] + [word for it in statements for word in ("-c", it)]
    return subprocess.run(words, check=True, stdout=subprocess.PIPE, text=True).stdout.splitlines()


def by_pgbench(name: str, dsn: str, script: Path, clients: int, seconds: float, mode: str) -> Tuple[int, float]:
    """Runs a script for some seconds. Returns how many transactions there were, and how many a second."""
    words = ["pgbench", "-n", "-M", mode, "-f", str(script), "-c", str(clients), "-j", str(min(2, clients)), "-T", str(max(1, round(seconds))), dsn]
    done = subprocess.run(words, stdout=subprocess.PIPE, stderr=subprocess.STDOUT, text=True, check=False)
    count = re.search(r"transactions actually processed: (\d+)", done.stdout)
    rate = re.search(r"tps = ([0-9.]+)", done.stdout)
    if done.returncode or not count or not rate:
        sys.exit(f"{name}: pgbench ended with status {done.returncode}: {done.stdout}")
    return int(count[1]), float(rate[1])


class Line(NamedTuple):
    """A line of a picture: what it is called, its colour as RGB, and its points as gnuplot numbers them."""

    title: str
    colour: str
    points: int


# The colours are of middle lightness, and the picture has no background, so that it is legible on white and on black.
PICTURE = """set terminal svg size 760,340 font "sans-serif,13" dynamic
set output "{file}"
set multiplot layout 1,2
set border 3 lc rgb "#808080"
set tics nomirror textcolor rgb "#808080"
set grid ytics lc rgb "#808080" lw 0.3
set key below horizontal textcolor rgb "#808080" reverse Left
set logscale x 2
set logscale y 10
set yrange [{low}:{high}]
set xrange [{least}:{most}]
set format y "%.0s%c"
set xtics ({tics})
set xlabel "clients" textcolor rgb "#808080"
set title textcolor rgb "#808080"
"""


def draw(file: str, lines: Sequence[Line], panels: Dict[str, List[List[float]]]) -> None:
    """Draws transactions a second against clients, a panel for each title. A row has the clients, and a value for each line."""
    rows = [row for it in panels.values() for row in it]
    values, clients = [value for row in rows for value in row[1:]], sorted({int(row[0]) for row in rows})
    low, high = 10 ** (len(str(int(min(values)))) - 1), 10 ** len(str(int(2 * max(values))))
    text = PICTURE.format(file=file, low=low, high=high, least=0.8 * clients[0], most=1.25 * clients[-1], tics=", ".join(map(str, clients)))
    for place, (title, rows) in enumerate(panels.items()):
        text += f"$data{place} << E\n" + "".join(" ".join(map(str, it)) + "\n" for it in rows) + "E\n"
        plots = [
            f'$data{place} using 1:{column} with linespoints lw 3 pt {it.points} ps 0.8 lc rgb "{it.colour}" title "{it.title}"'
            for column, it in enumerate(lines, 2)
        ]
        text += f'set title "{title}"\nplot ' + ", ".join(reversed(plots)) + "\n"
    subprocess.run(["gnuplot"], input=text, text=True, check=True)
