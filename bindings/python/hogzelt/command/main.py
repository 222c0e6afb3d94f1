"""The command line."""

from __future__ import annotations

import os
import sys
from importlib import import_module
from typing import NamedTuple, Sequence

from .. import __version__
from ..build import NoLibrary
from ..calls import Refused
from ..records import Fault
from .options import Usage, read_options
from .source import Refusing


class Command(NamedTuple):
    """The module of a command, loaded where it is called, the options that it knows, and its status
    where something is refused and where the reader of what is printed has gone."""

    module: str
    valued: Sequence[str]
    flags: Sequence[str] = ()
    refused: int = 1
    unread: int = 0


TABLE = {
    "shorten": Command("shorten", ("width", "file", "rules", "passes", "jobs"),
                       ("fold", "steps", "quiet", "json")),
    "judge": Command("judge", ("width", "file", "left", "right", "jobs"), ("fold", "quiet", "json"),
                     refused=2, unread=2),
    "value": Command("look", ("width", "file"), ("fold", "quiet")),
    "draw": Command("draw", ("width", "file", "rules", "passes", "svg"), ("fold",)),
    "columns": Command("look", ("width", "file", "rules", "passes"), ("fold",)),
    "normalize": Command("look", ("width", "file", "rules", "output"), ("fold",)),
    "write": Command("look", ("width", "file", "output"), ("fold",)),
    "show": Command("look", ("width", "file"), ("text",)),
    "week": Command("week", ("file", "output"), ("quiet",)),
}


def main(words: Sequence[str]) -> int:
    try:
        return finish(run(words))
    except (Refusing, Fault, Refused) as bad:
        return complain(str(bad), TABLE[words[0]].refused)
    except (Usage, NoLibrary) as bad:
        return complain(str(bad), 2)
    except BrokenPipeError:
        os.dup2(os.open(os.devnull, os.O_WRONLY), sys.stdout.fileno())
        return TABLE[words[0]].unread if words[0] in TABLE else 0
    except KeyboardInterrupt:
        return 130
    except OSError as bad:
        return complain(f"{bad.filename}: {bad.strerror}" if bad.filename else str(bad), 2)


def run(words: Sequence[str]) -> int:
    if words and words[0] in ("-h", "--help", "help"):
        return show_help(None)
    if words and words[0] == "--version":
        print(f"hogzelt {__version__}")
        return 0
    if not words or words[0] not in TABLE:
        named = f"no command {words[0]!r}; " if words else ""
        raise Usage(f"{named}the commands are {', '.join(TABLE)} (hogzelt --help)")
    command = TABLE[words[0]]
    options = read_options(words[1:], command.valued, command.flags)
    if "help" in options:
        return show_help(words[0])
    module = import_module(f".{command.module}", __package__)
    return int(getattr(module, words[0])(options))


def show_help(command: str | None) -> int:
    from .usage import COMMANDS, HELP

    sys.stdout.write(COMMANDS[command] if command else HELP)
    return 0


def complain(message: str, status: int) -> int:
    sys.stdout.flush()
    sys.stderr.write(f"hogzelt: {message}\n")
    return status


def finish(status: int) -> int:
    """What was printed is out before the status is given, so that a closed pipe shows here."""
    sys.stdout.flush()
    return status


def entry() -> None:
    """The command as pip installs it."""
    sys.exit(main(sys.argv[1:]))
