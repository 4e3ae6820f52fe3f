"""What the commands do alike: how they end, and the choices that several have."""

import argparse

from .answers import TOP
from .faults import Fault


def run(command):
    """Runs a command, and ends with 1 and a line where it has a fault, or something that it needs isn't there."""
    try:
        command()
    except Fault as fault:
        raise SystemExit(str(fault)) from None
    except ModuleNotFoundError as error:
        raise SystemExit(f"{error.name} isn't installed (Debian: apt-get install python3-{error.name})") from None
    except BrokenPipeError:
        raise SystemExit("the output was closed by its reader") from None
    except KeyboardInterrupt:
        raise SystemExit("ended by the user") from None


def positive(text):
    """A whole number from 1."""
    number = int(text)
    if number < 1:
        raise argparse.ArgumentTypeError(f"{text} is below 1")
    return number


def add_choices(words):
    """Adds the choices of what is answered."""
    words.add_argument("--top", type=positive, default=TOP, metavar="N", help=f"rows of each table of the most ({TOP})")
    words.add_argument(
        "--step", type=positive, metavar="SECONDS", help="the step of traffic over time (from its length)"
    )
