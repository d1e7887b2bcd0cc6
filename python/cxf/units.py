"""Whole millimetres and doubled square millimetres, as people write them."""

import re

_METRES = re.compile(r"(-?)(\d{1,9})(?:\.(\d{1,3}))?")


def metres(millimetres):
    """Metres, exact, with no needless digit: -5 is -0.005, 12000 is 12."""
    whole, rest = divmod(abs(millimetres), 1000)
    return f"{'-' if millimetres < 0 else ''}{whole}" + (f".{rest:03}".rstrip("0") if rest else "")


def square_metres(doubled):
    """Square metres with two decimals, rounded once, halves upward: 400000000 is 200.00."""
    hundredths = (doubled + 10_000) // 20_000
    whole, rest = divmod(abs(hundredths), 100)
    return f"{'-' if hundredths < 0 else ''}{whole}.{rest:02}"


def millimetres(text):
    """The millimetres of a length in metres with at most three decimals; ValueError where it is none."""
    match = _METRES.fullmatch(text)
    if not match:
        raise ValueError(f"{text!r} is no length in metres with at most three decimals")
    sign, whole, decimals = match.groups()
    length = int(whole) * 1000 + int((decimals or "").ljust(3, "0"))
    return -length if sign else length


def pair(text):
    """The millimetres of two lengths, east and north, parted by a comma."""
    east, comma, north = text.partition(",")
    if not comma:
        raise ValueError(f"{text!r} is no pair E,N")
    return millimetres(east), millimetres(north)
