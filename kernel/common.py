# SPDX-License-Identifier: GPL-2.0
"""What the scripts of this folder share: where things lie, what they say, and how they end."""
import argparse
import os
import signal
import sys

HERE = os.path.dirname(os.path.realpath(__file__))
TOP = os.path.dirname(HERE)
STATE = os.path.abspath(os.environ.get("GENIRQ_KERNEL") or "/var/tmp/genirq-kernel")
BZIMAGES = {name: f"{STATE}/{name}.bzImage" for name in ("harness", "machine")}


class Failed(Exception):
    """Something failed, and the text says what."""

    status = 1


class BadInput(Failed):
    """A board that can't be played, whatever the reason."""

    status = 3


class Parser(argparse.ArgumentParser):
    """Reads a script's words: --help prints its text, a wrong word the usage rows, with status 2."""

    def __init__(self, doc):
        super().__init__(add_help=False)
        self.doc = doc.strip()
        self.add_argument("--help", action="store_true")

    def words(self):
        """The words that were given; doesn't come back after --help."""
        if "--help" in sys.argv[1:]:
            print(self.doc)
            sys.exit(0)
        return self.parse_args()

    def error(self, message):
        """A wrong word."""
        rows = [row.strip() for row in self.doc.split("\n") if row.startswith("    kernel/")]
        print("\n".join(["usage: " + rows[0]] + ["       " + row for row in rows[1:]]), file=sys.stderr)
        say(message)
        sys.exit(2)


def positive(word):
    """A number from 1, of a word."""
    if int(word) < 1:
        raise ValueError(word)
    return int(word)


def script():
    """The name of the script that runs, as a user types it."""
    return f"kernel/{os.path.basename(sys.argv[0])}"


def say(text):
    """Tells something on standard error."""
    print(f"{script()}: {text}", file=sys.stderr, flush=True)


def without_trace(main):
    """Calls main and gives its status; a fault is one row on standard error."""
    signal.signal(signal.SIGTERM, lambda *_: sys.exit(143))  # so that what it started is stopped too
    try:
        if sys.stdout is None:
            raise Failed("write fault: the output is closed")
        status = main() or 0
        sys.stdout.flush()
        return status
    except Failed as fault:
        say(str(fault))
        return fault.status
    except BrokenPipeError:
        os.dup2(os.open(os.devnull, os.O_WRONLY), 1)
        say("write fault: the output was closed")
    except OSError as fault:
        say(f"fault: {fault}" if fault.filename else f"write fault: {fault.strerror}")
    except KeyboardInterrupt:
        say("interrupted")
    return 1
