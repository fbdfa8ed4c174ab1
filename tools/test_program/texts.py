"""The modes of the program, and its texts that more than one table has."""
import enum

MODES = ("run", "free", "serve")

READ = "escrowd: the script can't be read: Input/output error (os error 5)\n"
FOLDER_INPUT = "escrowd: the script can't be read: standard input is a directory\n"
TOO_LONG = "escrowd: the script can't be read: it is longer than 16777216 bytes\n"
NOT_UTF8 = "escrowd: the arguments must be UTF-8\n"
NO_FILE = "it is not a regular file, or it has several hard links"
FOREIGN = "it is not a store of escrowd: it holds something else, or it is damaged"
UNREADY_INPUT = "escrowd: the script can't be read: Resource temporarily unavailable (os error 11)\n"
CLOSED_INPUT = "escrowd: the script can't be read: standard input is closed or isn't open for reading\n"
BAD_MODE = "escrowd: the mode must be `run`, `free` or `serve`\n"
MISSING_FOLDER = "its directory doesn't exist"
LOST_LINK = "it is a symbolic link to a file that doesn't exist"
DATABASES = "escrowd: --databases must be a number from 1 to 16\n"
SESSIONS = "escrowd: --sessions must be a number from 1 to 65535, and only `serve` has it\n"


class Reason(enum.Enum):
    """Why standard output takes nothing more."""

    FULL = "No space left on device (os error 28)"
    LARGE = "File too large (os error 27)"
    BROKEN = "Broken pipe (os error 32)"
    UNREADY = "Resource temporarily unavailable (os error 11)"
    CLOSED = "standard output is closed or isn't open for writing"


def unanswered(reason: Reason) -> str:
    """What is said if a reply can't be written."""
    return f"escrowd: a reply can't be written: {reason.value}\n"


def unprinted(reason: Reason) -> str:
    """What is said if a text that was asked for can't be written."""
    return f"escrowd: the text can't be written: {reason.value}\n"
