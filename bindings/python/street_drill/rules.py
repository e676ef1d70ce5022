"""The library's rules of refusals 4 and 5 once more, since it tells their number alone and a caller wants the field.

  wrong_setting   the setting that refusal 4 is about, and its rule
  wrong_field     the field of a card that refusal 5 is about, and its rule
"""

import ctypes
import math
from collections.abc import Sequence
from typing import Any

Rule = tuple[str, str]

_WEIGHTS = "a weight is below 0 or not finite, or the weights add up to 0 or to no finite number"
_FARTHEST = 16_777_216


def _amount_ok(value: float) -> bool:
    return math.isfinite(value) and value >= 0


def _weights_ok(row: Sequence[float]) -> bool:
    total = 0.0
    for weight in row:
        # Added as the library adds: from left to right, rounded to f32 each time.
        total = ctypes.c_float(total + weight).value
    return all(map(_amount_ok, row)) and math.isfinite(total) and total != 0


def wrong_setting(config: Any, desired_retention: float) -> Rule | None:
    """The first that is wrong of a configuration, None where there is none; floats must be f32 already."""
    for name in ("first_rating_prob", "review_rating_prob"):
        if not _weights_ok(getattr(config, name)):
            return name, _WEIGHTS
    for name in ("learning_step_transitions", "relearning_step_transitions"):
        for number, row in enumerate(getattr(config, name)):
            if not _weights_ok(row):
                return f"{name}[{number}]", _WEIGHTS
    for number, row in enumerate(config.state_rating_costs):
        if not all(map(_amount_ok, row)):
            return f"state_rating_costs[{number}]", "a cost is below 0 or not finite"
    if math.isnan(config.max_cost_perday):
        return "max_cost_perday", "must be a number"
    if not 1 <= config.max_ivl <= 36_500:
        return "max_ivl", "must be 1 to 36,500"
    return None if math.isfinite(desired_retention) else ("desired_retention", "must be finite")


def wrong_field(card: Any) -> Rule | None:
    """The first that is wrong of a card that the run keeps, None where there is none."""
    is_new = card.last_date == -math.inf
    if not math.isfinite(card.stability):
        return "stability", "must be finite"
    if not math.isfinite(card.desired_retention):
        return "desired_retention", "must be finite"
    if not abs(card.due) <= _FARTHEST:
        return "due", f"must be within {_FARTHEST:,} days"
    if not (is_new or abs(card.last_date) <= _FARTHEST):
        return "last_date", f"must be within {_FARTHEST:,} days, or -inf"
    if not (is_new or math.isfinite(card.difficulty)):
        return "difficulty", "must be finite, since there is a last_date"
    return None if card.lapses <= 4_000_000_000 else ("lapses", "must be at most 4,000,000,000")
