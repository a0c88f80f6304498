"""Exact conversion of MATSim's numbers and times to whole numbers and back.

One rule holds everywhere: a number is read as an exact decimal, scaled, and rounded half up
(towards plus infinity), and then cut to the range that docs/files.md allows.
"""

from __future__ import annotations

import math
import re
from decimal import ROUND_FLOOR, Decimal, InvalidOperation
from fractions import Fraction
from functools import lru_cache

_HALF = Decimal("0.5")
_CLOCK = re.compile(r"(\d{1,4}):(\d\d):(\d\d)(?:\.0*)?\Z")


def decimal(text: str) -> Decimal:
    """Read a number; ValueError where it is none."""
    try:
        value = Decimal(text.strip())
    except InvalidOperation:
        raise ValueError(f"{text!r} is no number") from None
    if value.is_nan():
        raise ValueError(f"{text!r} is no number")
    return value


def half_up(value: Decimal | Fraction | float) -> int:
    """Round to the nearest whole number, a half upwards."""
    if isinstance(value, Decimal):
        return int((value + _HALF).to_integral_value(ROUND_FLOOR))
    return math.floor(Fraction(value) + Fraction(1, 2))


@lru_cache(maxsize=65_536)
def scaled(text: str, factor: int, low: int, high: int) -> tuple[int, bool]:
    """A number times a factor, rounded half up and cut to its range; and whether it was cut."""
    value = decimal(text) * factor
    if value.is_infinite():
        return (high if value > 0 else low), True
    whole = half_up(value)
    cut = min(max(whole, low), high)
    return cut, cut != whole


def seconds(text: str | None) -> int | None:
    """A time HH:MM:SS, HH:MM or a number of seconds; None where it is undefined."""
    if text is None:
        return None
    match = _CLOCK.match(text)
    if match is not None:
        return int(match[1]) * 3600 + int(match[2]) * 60 + int(match[3])
    if text.strip() in ("", "undefined", "-Infinity", "null"):
        return None
    negative = text.strip().startswith("-")
    parts = text.strip().lstrip("-").split(":")
    if len(parts) > 3:
        raise ValueError(f"{text!r} is no time")
    total = Fraction(0)
    for part in parts:
        total = total * 60 + Fraction(decimal(part))
    if len(parts) == 2:
        total *= 60
    return half_up(-total if negative else total)


def clock(second: int) -> str:
    """A second as HH:MM:SS."""
    return f"{second // 3600:02d}:{second // 60 % 60:02d}:{second % 60:02d}"


def metres(centimetres: int) -> str:
    """Centimetres as metres with all their digits."""
    sign, whole = ("-" if centimetres < 0 else ""), abs(centimetres)
    return f"{sign}{whole // 100}.{whole % 100:02d}"


def plain(value: Decimal) -> str:
    """A decimal without an exponent and without trailing zeros."""
    text = f"{value:f}"
    return text.rstrip("0").rstrip(".") if "." in text else text
