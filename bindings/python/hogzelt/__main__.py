"""python3 -m hogzelt: the command."""

from .command.main import entry

if __name__ == "__main__":
    entry()
