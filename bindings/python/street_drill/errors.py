"""What a call or a command may be turned away with.

  Refusal   the library's, by the number of its table
  Mistake   in what the planner wrote: settings, a deck, a listing, a file's name; Mistakes: several at once
  raise_all of the mistakes of a file, where there are any
  each_of   a mistake, or of several each
  gathered  the answers of several calls, or the mistakes of all
"""

from collections.abc import Callable, Iterable, Sequence
from typing import TypeVar

T = TypeVar("T")

_SENTENCES = {
    1: "a parameter is not finite",
    2: "deck_size is 0 or above 65,536",
    3: "learn_span is not 1 to 36,500",
    4: "a row of weights has an entry below 0 or not finite, or a sum that is 0 or not finite; or a cost is below 0 or "
       "not finite, max_cost_perday is no number, max_ivl is not 1 to 36,500, the retention is not finite, or the "
       "rounds are not 1 to 64",
    5: "an existing card has a stability, due date, last date, difficulty or retention that is not finite, a date "
       "beyond ±16,777,216, or more than 4,000,000,000 lapses",
    6: "a list is too short, or two that belong together differ in length",
    7: "a chance of recall is not 0 to 1: the parameters make no sense for this card",
    8: "the interval table is full",
    9: "a due count would fall below 0",
    10: "no retention was found within the rounds",
    11: "a line is no form, or its name stood on an earlier line, or the input is over 32,768 bytes",
}
_SECONDS = {
    1: "parameter {} from 0",
    5: "card {} from 0, of the existing ones",
    7: "card {} from 0, of the run's",
    8: "card {} from 0, of the run's",
    9: "card {} from 0, of the run's",
    10: "{} rounds done",
    11: "line {}, 0 for the input",
}


class Refusal(Exception):
    """A call that the library turned away, with the numbers of its table of refusals.

    `field` and `rule` are what of the call is wrong, where the numbers do not say it.
    """

    def __init__(self, number: int, second: int, field: str = "", rule: str = "") -> None:
        super().__init__(number, second, field, rule)
        self.number = number
        self.second = second
        self.field = field
        self.rule = rule

    @property
    def sentence(self) -> str:
        """What the numbers say, or the field."""
        if self.field:
            return f"{self.field} {self.rule}" if self.rule.startswith("must") else f"{self.field}: {self.rule}"
        if (self.number, self.second) == (1, 34):
            return "there are fewer than 34 parameters"
        if (self.number, self.second) == (2, 1):
            return "there are more existing cards than deck_size"
        sentence = _SENTENCES.get(self.number, "the refusal is of no number that this package knows")
        place = _SECONDS.get(self.number)
        return f"{sentence} ({place.format(self.second)})" if place else sentence

    def __str__(self) -> str:
        return f"refused {self.number} {self.second}: {self.sentence}"


class Mistake(Exception):
    """Something written wrongly, with its place: a file, and in it a line or a key."""

    def __init__(self, place: str, sentence: str) -> None:
        super().__init__(place, sentence)
        self.place = place
        self.sentence = sentence

    def __str__(self) -> str:
        return f"{self.place}: {self.sentence}"


class Mistakes(Mistake):
    """Several mistakes; its place and sentence are the first's."""

    def __init__(self, mistakes: Sequence[Mistake]) -> None:
        super().__init__(mistakes[0].place, mistakes[0].sentence)
        # What is raised in another process is made anew here from these.
        self.args = (mistakes,)
        self.mistakes = tuple(mistakes)

    def __str__(self) -> str:
        return "\n".join(map(str, self.mistakes))


# A column of a wrong kind has a mistake a row: so many are told of a file.
_MOST = 20


def raise_all(path: str, mistakes: Sequence[Mistake]) -> None:
    """Of a file; nothing is raised where there are none."""
    if len(mistakes) > _MOST:
        mistakes = [*mistakes[:_MOST], Mistake(path, f"has {len(mistakes) - _MOST:,} more mistakes")]
    if mistakes:
        raise Mistakes(mistakes) if len(mistakes) > 1 else mistakes[0]


def each_of(mistake: Mistake) -> Sequence[Mistake]:
    """One by one."""
    return mistake.mistakes if isinstance(mistake, Mistakes) else [mistake]


def gathered(calls: Iterable[Callable[[], T]]) -> list[T]:
    """The answers, or the mistakes of all calls at once."""
    answers, mistakes = [], []
    for call in calls:
        try:
            answers.append(call())
        except Mistake as mistake:
            mistakes += each_of(mistake)
    if mistakes:
        raise Mistakes(mistakes)
    return answers
