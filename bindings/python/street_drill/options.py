"""The arguments of the planner's command.

  parser    reads them
  sources   what --seed, --retention and --set set, as texts of settings
"""

import argparse
import os
import sys
from pathlib import Path
from typing import Any, NoReturn

from . import __version__, text
from .causes import cause
from .decimals import exact
from .errors import Mistake
from .settings import Source


class _Parser(argparse.ArgumentParser):
    def __init__(self, *arguments: Any, **named: Any) -> None:
        super().__init__(*arguments, **named)
        # For arguments that name no action of their own.
        self.register("action", None, _Once)

    def error(self, message: str) -> NoReturn:
        """A line as of any other mistake, and no page of usage."""
        self.exit(2, f"street_drill: {message}; {self.prog} --help tells more\n")


class _Once(argparse.Action):
    def __call__(self, parser: argparse.ArgumentParser, namespace: argparse.Namespace, values: Any,
                 option_string: str | None = None) -> None:
        """The planner cannot mean both of two."""
        if getattr(namespace, self.dest) != self.default:
            parser.error(f"argument {option_string}: stands twice")
        setattr(namespace, self.dest, values)


# A mean of so many runs is off by some hundredths of the spread, and more of them would fill the memory.
MOST_RUNS = 1000


def _positive(text: str) -> int:
    number = int(text)
    if not 1 <= number < 2**32:
        raise ValueError
    return number


_positive.__name__ = "whole number from 1 to 4294967295"


def _runs(text: str) -> int:
    number = int(text)
    if not 1 <= number <= MOST_RUNS:
        raise ValueError
    return number


_runs.__name__ = f"whole number from 1 to {MOST_RUNS}"


def _made() -> _Parser:
    """What commands that make runs have in common."""
    made = _Parser(add_help=False)
    made.add_argument("--set", action="append", default=[], metavar="KEY=VALUE",
                      help="a setting, in place of the file's")
    made.add_argument("--retention", metavar="RETENTION",
                      help="of new streets, as --set desired_retention=RETENTION")
    made.add_argument("--workers", type=_positive, default=os.cpu_count(), help="runs at once (default: all cores)")
    _add_quiet(made)
    return made


def _add_quiet(parser: _Parser) -> None:
    parser.add_argument("--quiet", action="store_true", help="tell no progress on the terminal")


def _opened() -> _Parser:
    opened = _Parser(add_help=False)
    opened.add_argument("--open", type=_positive, metavar="STREETS", help="tell from when so many streets stay held")
    return opened


def _add_runs(parser: _Parser) -> None:
    # The search has seeds of its own.
    parser.add_argument("--seed", type=int, metavar="SEED", help="as --set seed=SEED")
    parser.add_argument("--runs", type=_runs, default=1,
                        help=f"seeds to forecast, from the given one on; at most {MOST_RUNS}")


def parser() -> _Parser:
    """Of all commands."""
    called = Path(sys.argv[0]).name
    own = _Parser(prog=called if called == "street-drill" else "python3 -m street_drill",
                  description="Forecasts a street drill. A file named - is standard output.")
    own.add_argument("--version", action="version", version=f"street-drill {__version__}")
    commands = own.add_subparsers(dest="command", required=True)
    made, opened = _made(), _opened()
    known = _Parser(add_help=False)
    known.add_argument("--deck", metavar="DECK.csv", help="the streets known already")
    forecast = commands.add_parser("forecast", parents=[known, opened, made], help="what the drill costs and holds")
    forecast.add_argument("settings", nargs="+", metavar="SETTINGS.toml")
    _add_runs(forecast)
    forecast.add_argument("--rows", metavar="ROWS.csv", help="write a row a day; a folder for several settings")
    forecast.add_argument("--weeks", metavar="WEEKS.csv", help="write a row a week; a folder for several settings")
    forecast.add_argument("--cards", metavar="CARDS.csv",
                          help="write the deck after the drill, for the next --deck; a folder for several settings")
    forecast.add_argument("--page", metavar="PAGE.html", help="write pictures and tables, for a browser")
    cheapest = commands.add_parser("cheapest", parents=[known, made], help="the retention that costs least a street")
    cheapest.add_argument("settings", metavar="SETTINGS.toml")
    cheapest.add_argument("--page", metavar="PAGE.html", help="write what was tried as a picture")
    drawn = commands.add_parser("page", parents=[opened], help="the page of what the program forecast printed")
    drawn.add_argument("listings", nargs="+", metavar="LISTING.txt")
    _add_quiet(drawn)
    drawn.add_argument("--page", metavar="PAGE.html", help="default: the first listing's name with .html")
    _add_region(commands.add_parser("region", parents=[opened, made], help="a forecast of each depot of a folder"))
    told = commands.add_parser("text", help="a text as the program forecast reads it, with a status for scripts")
    told.add_argument("--program", default=text.PROGRAMS[0],
                      help="forecast (default) or cheapest of the repository's target/bin, or a program's path")
    return own


def _add_region(parser: _Parser) -> None:
    parser.add_argument("folder", metavar="DIR", help="has NAME.toml for each depot, and NAME.csv where it has a deck")
    _add_runs(parser)
    parser.add_argument("--scheduler", metavar="ADDRESS", help="HOST:PORT of a Dask cluster for the runs")
    parser.add_argument("--summary", metavar="SUMMARY.csv", help="a row a depot (region.csv, a new file)")
    parser.add_argument("--page", metavar="PAGE.html", help="all as one (region.html, a new file)")


def _retention(text: str) -> str:
    """A number as the settings read it, which round it once."""
    try:
        return str(exact(text))
    except ValueError as error:
        raise Mistake("--retention", f"{text[:40]!r} {cause(text) or error}") from error


def sources(options: argparse.Namespace) -> list[Source]:
    """Each sets a key; two that set the same are a mistake."""
    told = [(f"--set {text[:80]!r}", text) for text in options.set]
    if getattr(options, "seed", None) is not None:
        told.append(("--seed", f"seed = {options.seed}"))
    if options.retention is not None:
        told.append(("--retention", f"desired_retention = {_retention(options.retention)}"))
    return told
