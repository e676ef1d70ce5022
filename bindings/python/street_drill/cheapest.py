"""What the search for the cheapest retention found, in words.

  in_order   what was tried, by retention
  curve      a line a trial
  advice     what is advised, or why nothing is
  short      a retention; doubt: what a trial's mean is off, give or take
"""

import math
from collections.abc import Sequence

from .errors import Mistake
from .search import Trial, standard_error
from .streets import Streets


def short(retention: float) -> str:
    """More digits would be more than the runs tell."""
    return f"{retention:.4f}".rstrip("0")


def in_order(path: str, tried: Sequence[Trial], present: Trial) -> list[Trial]:
    """All by their retention, the present setting's among them; a mistake where no retention can be the cheapest."""
    trials = sorted({each.retention: each for each in [present, *tried]}.values(), key=lambda each: each.retention)
    if any(math.isnan(each.mean) for each in trials) or not 0 <= min(each.mean for each in trials) < math.inf:
        raise Mistake(path, "what a trial costs for each street held is no time, as where none is held at its end: no "
                      "retention is the cheapest")
    return trials


def give_or_take(error: float) -> float:
    """Two standard errors leave one doubt in twenty."""
    return 2 * error


def doubt(trial: Trial) -> str:
    """What the mean is off, give or take; empty where the runs do not tell."""
    return "" if math.isnan(trial.error) else f"{give_or_take(trial.error):.2f}"


def curve(trials: Sequence[Trial], present: Trial) -> str:
    """A line a trial."""
    lines = ["  retention  seconds a street held  give or take  streets held\n"]
    for each in trials:
        mark = "  the present setting" if each.retention == present.retention else ""
        lines.append(f"  {short(each.retention):<9}  {each.mean:>21.2f}  {doubt(each):>12}  {each.held:>12.1f}{mark}\n")
    return "".join(lines)


def _are_alike(trials: Sequence[Trial]) -> bool:
    return len({each.mean for each in trials}) == 1


def _more(best: Trial, other: Trial) -> tuple[float, float]:
    """What the other costs more, with the standard error: both have the same seeds, so the runs go in pairs."""
    differences = [late - early for early, late in zip(best.costs, other.costs)]
    return other.mean - best.mean, standard_error(differences)


def _is_told_apart(best: Trial, other: Trial) -> bool:
    """Whether the runs tell that the other costs more."""
    more, error = _more(best, other)
    return not more <= give_or_take(error)


def _advice(trials: Sequence[Trial], present: Trial, streets: Streets) -> str:
    """Of trials in the order of their retention."""
    best = min(trials, key=lambda each: each.mean)
    if _are_alike(trials):
        why = "" if streets.new else ", since no street is new: a deck's streets keep their own retention"
        return f"no retention is advised: all that were tried cost the same{why}"
    for end, which, beyond in [(trials[0], "lowest", "lower"), (trials[-1], "highest", "higher")]:
        if best is end:
            return (f"no retention is advised: {short(best.retention)} costs least, and is the {which} that was tried; "
                    f"the cheapest may lie {beyond} still")
    for other, which in [(present, "the present setting"), (trials[0], "the lowest that was tried"),
                         (trials[-1], "the highest that was tried")]:
        if other.retention != best.retention and not _is_told_apart(best, other):
            return (f"no retention is advised: {short(best.retention)} costs least, but these runs can't tell it from "
                    f"{short(other.retention)}, {which}: {_difference(best, other)}")
    return f"retention {short(best.retention)} costs least"


def _difference(best: Trial, other: Trial) -> str:
    more, error = _more(best, other)
    off = "" if math.isnan(error) else f", give or take {give_or_take(error):.2f}"
    return f"{more:.2f} seconds a street more{off}"


def _as_cheap(trials: Sequence[Trial], best: Trial) -> list[str]:
    """What the runs can't tell from the best: four digits of it would be more than they know."""
    alike = [short(each.retention) for each in trials if each is not best and not _is_told_apart(best, each)]
    return [f"as cheap, as far as these runs tell: {', '.join(alike)}"] if alike else []


def _beside(best: Trial, present: Trial) -> str:
    """What the present setting costs beside the best."""
    if present.mean == best.mean:
        return f"the present {short(present.retention)} costs as much"
    fewer = "more" if present.held >= best.held else "fewer"
    return (f"the present {short(present.retention)} costs {_difference(best, present)} "
            f"({(present.mean - best.mean) / best.mean:.0%}), and holds {abs(present.held - best.held):.1f} streets "
            f"{fewer}")


def advice(trials: Sequence[Trial], present: Trial, streets: Streets) -> list[str]:
    """What is advised, or why nothing is, and what the present setting costs."""
    best = min(trials, key=lambda each: each.mean)
    lines = [_advice(trials, present, streets)]
    if not _are_alike(trials):
        lines += _as_cheap(trials, best)
        lines += [_beside(best, present)] if best.retention != present.retention else []
    if streets.known and streets.new:
        lines.append(f"desired_retention is for the {streets.new:,} new streets; "
                     f"the deck's {streets.known:,} keep theirs")
    return lines
