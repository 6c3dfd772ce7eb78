"""Calls whose refusal a test looks at."""

from __future__ import annotations

from typing import Any, Callable, Tuple

from tarnoklej import Refused


def asked(call: Callable[..., Any], *arguments: Any) -> Tuple[int, Any]:
    """The refusal number and the answer of a call: 0 and the answer, or the number and None."""
    try:
        return 0, call(*arguments)
    except Refused as refused:
        return refused.number, None
