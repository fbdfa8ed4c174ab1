"""Steps of tools/test-program over files: changes, runs of the program, and what has to stand."""
import os
import shutil
import stat
from typing import NamedTuple, Sequence, Tuple, Union

from process import NOBODY, Case, Input, Output, Program, Stage, Word, check, compare, expect
from texts import MODES

# A script and its replies.
Talk = Tuple[str, str]


class Folder(NamedTuple):
    """Makes a folder, or empties it."""

    path: str

    def take(self, _program: Program, at: str) -> None:
        shutil.rmtree(f"{at}/{self.path}", ignore_errors=True)
        os.mkdir(f"{at}/{self.path}")


class Write(NamedTuple):
    """Writes a file."""

    path: str
    text: str

    def take(self, _program: Program, at: str) -> None:
        with open(f"{at}/{self.path}", "w", encoding="utf-8") as file:
            file.write(self.text)


class Copy(NamedTuple):
    """Copies a file. A path that begins with `/` is taken as it is."""

    path: str
    other: str

    def take(self, _program: Program, at: str) -> None:
        shutil.copyfile(os.path.join(at, self.path), f"{at}/{self.other}")


class Rename(NamedTuple):
    """Gives a file another path."""

    path: str
    other: str

    def take(self, _program: Program, at: str) -> None:
        os.rename(f"{at}/{self.path}", f"{at}/{self.other}")


class Link(NamedTuple):
    """Gives a file a further name, or makes a symbolic link."""

    path: str
    other: str
    is_symbolic: bool

    def take(self, _program: Program, at: str) -> None:
        if self.is_symbolic:
            os.symlink(os.path.basename(self.path), f"{at}/{self.other}")
        else:
            os.link(f"{at}/{self.path}", f"{at}/{self.other}")


class Pipe(NamedTuple):
    """Makes a named pipe."""

    path: str

    def take(self, _program: Program, at: str) -> None:
        os.mkfifo(f"{at}/{self.path}")


class Rights(NamedTuple):
    """Sets the rights of a file or a folder."""

    path: str
    rights: int

    def take(self, _program: Program, at: str) -> None:
        os.chmod(f"{at}/{self.path}", self.rights)


class Patch(NamedTuple):
    """Replaces bytes of a file wherever they are. There have to be some."""

    path: str
    old: bytes
    new: bytes

    def take(self, _program: Program, at: str) -> None:
        with open(f"{at}/{self.path}", "r+b") as file:
            whole = file.read()
            expect(self.old in whole and len(self.old) == len(self.new), f"{self.path} has no {self.old!r}")
            file.seek(0)
            file.write(whole.replace(self.old, self.new))


class Serve(NamedTuple):
    """Has a command line serve a script to its end."""

    words: Sequence[Word]
    talk: Talk
    errors: str = ""

    def take(self, program: Program, at: str) -> None:
        script, replies = self.talk
        check(program, Case("", self.words, script, replies, errors=self.errors, reads=True), at)


class Run(NamedTuple):
    """Has a run of the program show what its case says."""

    case: Case

    def take(self, program: Program, at: str) -> None:
        check(program, self.case, at)


class Refuse(NamedTuple):
    """In each mode the store at a path isn't opened, for this cause, and nothing is read."""

    path: str
    cause: str

    def take(self, program: Program, at: str) -> None:
        errors = f"escrowd: the store of bank, `{self.path}`, can't be opened: {self.cause}\n"
        for mode in MODES:
            check(program, Case("", (mode, "--store", self.path), "bank.1: COMMIT\n", errors=errors, status=3, reads=False), at)


class Stand(NamedTuple):
    """A folder has just what is at these paths in it."""

    folder: str
    paths: Sequence[str]

    def take(self, _program: Program, at: str) -> None:
        compare(f"what stands in {self.folder}", sorted(self.paths), sorted(os.listdir(f"{at}/{self.folder}")))


class Hold(NamedTuple):
    """A file has this content."""

    path: str
    text: str

    def take(self, _program: Program, at: str) -> None:
        with open(f"{at}/{self.path}", encoding="utf-8") as file:
            compare(self.path, self.text, file.read())


class Same(NamedTuple):
    """Two files have the same content."""

    path: str
    other: str

    def take(self, _program: Program, at: str) -> None:
        found = []
        for path in self:
            with open(f"{at}/{path}", "rb") as file:
                found.append(file.read())
        expect(found[0] == found[1], f"{self.path} isn't {self.other}")


class Mode(NamedTuple):
    """A file or a folder has these rights, and this kind."""

    path: str
    mode: int

    def take(self, _program: Program, at: str) -> None:
        compare(f"the rights of {self.path}", oct(self.mode), oct(stat.S_IMODE(os.lstat(f"{at}/{self.path}").st_mode)))


class Meanwhile(NamedTuple):
    """Takes steps while a program is open that was given lines and has answered them. It is then given the rest, or killed."""

    words: Sequence[Word]
    talk: Talk
    steps: Sequence["Step"]
    rest: Talk = ("", "")
    errors: str = ""
    status: int = 0
    stdout: Output = Output.KEPT
    is_killed: bool = False

    def take(self, program: Program, at: str) -> None:
        with Stage() as stage:
            stage.give_input(Input.PIPE)
            stage.give_output("stdout", self.stdout)
            stage.give_output("stderr", Output.KEPT)
            stage.start(program, self.words, at)
            # A line that nothing answers: once it was read, the stores are open.
            stage.give_lines("\n", "")
            stage.give_lines(*self.talk)
            play(program, self.steps, at)
            if not self.is_killed:
                stage.write(self.rest[0].encode())
                self.compare_end(stage)

    def compare_end(self, stage: Stage) -> None:
        """Compares what the program shows once its script has ended."""
        status = stage.end()
        compare("standard error", self.errors, stage.text("stderr"))
        compare("standard output", self.talk[1] + self.rest[1], stage.text("stdout"))
        compare("the status", self.status, status)


Step = Union[Folder, Write, Copy, Rename, Link, Pipe, Rights, Patch, Serve, Run, Refuse, Stand, Hold, Same, Mode, Meanwhile]


class Story(NamedTuple):
    """Steps that are taken one after another in a folder of their own. `is_nobody`: the superuser has nobody start the program, who owns all files."""

    name: str
    steps: Sequence[Step]
    is_nobody: bool = False


def own_all(folder: str) -> None:
    """Gives all files below a folder to nobody."""
    for at, _, names in os.walk(folder):
        for path in (at, *(f"{at}/{name}" for name in names)):
            os.chown(path, NOBODY, NOBODY, follow_symlinks=False)


def play(program: Program, steps: Sequence[Step], folder: str) -> None:
    """Takes steps one after another."""
    for step in steps:
        step.take(program, folder)
        if program.is_nobody and os.geteuid() == 0:
            own_all(folder)


def tell(program: Program, story: Story, folder: str) -> None:
    """Takes the steps of a story."""
    os.chmod(folder, 0o755)
    play(program._replace(is_nobody=story.is_nobody), story.steps, folder)
