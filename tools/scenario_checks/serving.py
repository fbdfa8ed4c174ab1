"""Serving scenarios with built programs, and comparing the replies to the byte.

A program serves each part over a store in memory and then over stores in files. A second round serves the parts of `run` by the mode `serve`. A part passes
if it gets exactly its replies, status 0, and nothing on standard error. One line is expected there: a store that lies beside the scripts is of the format
before, and the first part over it reports the change.
"""
import concurrent.futures
import contextlib
import difflib
import os
import shutil
import subprocess
import sys
import tempfile
from typing import Dict, Iterator, List, NamedTuple, Optional, Sequence, Tuple

from scenario_checks.scripts import Part, Scenario

# The seconds that one part may take.
SECONDS = 600
# The rounds that each program serves, with the modes that each replaces.
ROUNDS: List[Tuple[str, Dict[str, str]]] = [("own", {}), ("serve", {"run": "serve"})]


class How(NamedTuple):
    """How scenarios are served: by so many jobs, over files only stores that at most so many lines write, with the stores kept in a folder. `is_whole`
    is whether all differences are described, or the first line that differs."""

    jobs: int
    lines: Optional[int] = None
    kept: Optional[str] = None
    is_whole: bool = False


class Job(NamedTuple):
    """A script that a program serves, over stores in memory or in files, in a folder. `modes` replaces modes."""

    program: str
    scenario: Scenario
    folder: str
    is_in_files: bool
    modes: Dict[str, str]

    def name(self) -> Tuple[str, str]:
        """The program and the script."""
        return self.program, f"{self.scenario.folder}/{self.scenario.name}"


def expected_errors(job: Job, part: Part, seen: List[str]) -> bytes:
    """What a part must write to standard error. `seen` are the stores that were opened before."""
    store = job.scenario.store_of(part)
    is_old = job.is_in_files and store not in seen and any(os.path.basename(it) == store for it in job.scenario.beside)
    seen.append(store)
    return f"escrowd: {store} was migrated from format 1 to format 2\n".encode() if is_old else b""


def difference(expected: bytes, got: bytes) -> str:
    """The first line that differs."""
    wanted, found = expected.split(b"\n"), got.split(b"\n")
    at = next((place for place, both in enumerate(zip(wanted, found)) if both[0] != both[1]), min(len(wanted), len(found)))
    shown = [repr(it[at].decode(errors="backslashreplace")) if at < len(it) else "nothing" for it in (wanted, found)]
    return f"line {at + 1}: expected {shown[0]}, got {shown[1]}"


def differences(expected: bytes, got: bytes) -> str:
    """All lines that differ."""
    wanted, found = (it.decode(errors="backslashreplace").split("\n") for it in (expected, got))
    return "\n".join(["", *difflib.unified_diff(wanted, found, "expected", "got", lineterm="")])


def fault_of(job: Job, part: Part, errors: bytes, is_whole: bool) -> Optional[str]:
    """What is wrong with a part, if anything is."""
    words = [job.program, job.modes.get(part.mode, part.mode), "--databases", part.databases]
    words += ["--store", job.scenario.store_of(part)] if job.is_in_files else []
    try:
        done = subprocess.run(words, cwd=job.folder, input=part.script, stdout=subprocess.PIPE, stderr=subprocess.PIPE, timeout=SECONDS, check=False)
    except subprocess.TimeoutExpired:
        return f"not served within {SECONDS} seconds"
    if done.returncode or done.stderr != errors:
        return f"status {done.returncode}, and standard error has {done.stderr.decode(errors='backslashreplace')!r}"
    if done.stdout == part.replies:
        return None
    return (differences if is_whole else difference)(part.replies, done.stdout)


def faults_of(job: Job, how: How) -> Iterator[str]:
    """Serves the parts of a job in their order, and describes what is wrong with each."""
    for path in job.scenario.beside if job.is_in_files else ():
        shutil.copy(path, job.folder)
    seen: List[str] = []
    for part in job.scenario.over_files(how.lines) if job.is_in_files else job.scenario.over_memory():
        fault = fault_of(job, part, expected_errors(job, part, seen), how.is_whole)
        if fault:
            mode = job.modes.get(part.mode, part.mode)
            where = "files" if job.is_in_files else "memory"
            title = part.title.decode(errors="replace")
            yield f"part {part.number}{f' ({title})' if title else ''}, mode {mode}, stores in {where}: {fault}"


def jobs_of(paths: Sequence[str], scenarios: Sequence[Scenario], place: str) -> Iterator[Job]:
    """All jobs, those over files first, since they take longest. Makes the folders of their stores."""
    lanes = [(number, path, *it) for number, path in enumerate(paths, 1) for it in ROUNDS]
    for is_in_files in (True, False):
        for number, path, name, modes in lanes:
            for scenario in scenarios:
                folder = f"{place}/{number}/{name}/{scenario.folder}"
                os.makedirs(folder, exist_ok=True)
                yield Job(path, scenario, folder, is_in_files, modes)


@contextlib.contextmanager
def room(kept: Optional[str]) -> Iterator[str]:
    """The folder of all stores."""
    if kept is None:
        with tempfile.TemporaryDirectory(prefix="escrowd-scenarios-") as place:
            yield place
    else:
        os.makedirs(kept)
        yield os.path.abspath(kept)


def serve_all(paths: Sequence[str], scenarios: Sequence[Scenario], how: How) -> int:
    """Serves scenarios with the programs at paths. Prints what is wrong to standard error, and the sums, which count each script once for each program.
    Returns the status: 1 if a script failed."""
    wrong: Dict[Tuple[str, str], List[str]] = {}
    with room(how.kept) as place, concurrent.futures.ThreadPoolExecutor(how.jobs) as pool:
        jobs = list(jobs_of(paths, scenarios, place))
        for job, faults in zip(jobs, pool.map(lambda job: list(faults_of(job, how)), jobs)):
            wrong.setdefault(job.name(), []).extend(faults)
    between = "\n" if how.is_whole else "; "
    for (program, name), faults in wrong.items():
        if faults:
            print(f"{name}, {os.path.relpath(program)}: {between.join(faults)}", file=sys.stderr)
    failed = sum(map(bool, wrong.values()))
    print(f"{len(wrong) - failed} passed, {failed} failed")
    return 1 if failed else 0
