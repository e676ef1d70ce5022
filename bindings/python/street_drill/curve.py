"""The page of a search: what each retention that was tried costs, and how many streets it holds.

  page    the whole text
"""

from collections.abc import Callable, Iterator, Sequence
from html import escape

from .axes import LEFT, RIGHT, Scale, axis, below, grid
from .cheapest import doubt, short
from .page import document, pairs
from .picture import frame
from .search import Trial

# The search's own ends.
_FIRST, _LAST = 0.70, 0.95
_MARKS = (0.70, 0.75, 0.80, 0.85, 0.90, 0.95)


def _dots(scale: Scale, values: Sequence[tuple[Trial, float]], present: Trial | None) -> Iterator[str]:
    """A dot for each trial, with its numbers as its title."""
    points = "L".join(f"{scale.x(trial.retention):.1f} {scale.y(value):.1f}" for trial, value in values)
    yield f'<path class="course c0" d="M{points}"/>'
    for trial, value in values:
        yield (f'<circle class="dot c0" cx="{scale.x(trial.retention):.1f}" cy="{scale.y(value):.1f}" r="3.5">'
               f"<title>retention {short(trial.retention)}: {value:,.2f}</title></circle>")
    best, _ = min(values, key=lambda each: each[0].mean)
    # One name stands above its dot and one below, since they may be close.
    for name, named, gap, colour in (("cheapest", best, -10, 1), ("present", present, 20, 2)):
        for trial, value in values:
            if named and trial.retention == named.retention:
                yield from _named(f"{name}: {short(trial.retention)}", scale.x(trial.retention),
                                  scale.y(value), gap, colour)


def _named(text: str, x: float, y: float, gap: float, colour: int) -> Iterator[str]:
    side = "start" if x < (LEFT + RIGHT) / 2 else "end"
    yield f'<circle class="dot c{colour}" cx="{x:.1f}" cy="{y:.1f}" r="5"/>'
    yield f'<text class="over c{colour}" x="{x:.1f}" y="{y + gap:.1f}" text-anchor="{side}">{text}</text>'


def _figure(title: str, trials: Sequence[Trial], of: Callable[[Trial], float], present: Trial | None) -> str:
    values = [(trial, of(trial)) for trial in trials]
    marks = axis(max(value for _, value in values) or 1)
    retentions = [trial.retention for trial in trials]
    scale = Scale(max(_LAST, *retentions), marks[-1], min(_FIRST, *retentions))
    parts = [*grid(scale, marks), *below(scale, [(mark, f"{mark:.2f}") for mark in _MARKS], "retention"),
             *_dots(scale, values, present)]
    return f"<figure><figcaption>{title}</figcaption>{frame(title, parts)}</figure>"


def _table(trials: Sequence[Trial]) -> str:
    cells = [(short(trial.retention), f"{trial.mean:,.2f}", doubt(trial), f"{trial.held:,.1f}") for trial in trials]
    rows = "".join("<tr>" + "".join(f"<td>{cell}</td>" for cell in row) + "</tr>" for row in cells)
    return ('<details class="rows" open><summary>Retentions that were tried</summary><div class="scroll"><table>'
            "<thead><tr><th>retention</th><th>seconds for each street held</th><th>give or take</th>"
            "<th>streets held</th></tr></thead>"
            f"<tbody>{rows}</tbody></table></div></details>")


def page(name: str, tried: Sequence[Trial], present: Trial | None = None, told: Sequence[str] = (),
         made_from: Sequence[tuple[str, str]] = ()) -> str:
    """The page of trials, whose means must be finite; `present` is the setting's own retention, `told` what the search
    says of them, in lines, and `made_from` what stands at the head."""
    by_retention = {trial.retention: trial for trial in [*([present] if present else []), *tried]}
    trials = [by_retention[retention] for retention in sorted(by_retention)]
    lines = "".join(f"<p>{escape(line)}</p>" for line in told)
    return document(f"{name}: cost by retention", [
        f'<section class="made">{pairs(made_from)}</section>',
        "<main>", f'<section class="summary">{lines}</section>' if told else "",
        _figure("Seconds for each street held at the end", trials, lambda trial: trial.mean, present),
        _figure("Streets held at the end", trials, lambda trial: trial.held, present),
        "</main>",
        "<p>Each retention's numbers are the means of the runs that the search made for it, with the same seeds for "
        "each. Give or take: two standard errors.</p>",
        _table(trials),
    ])
