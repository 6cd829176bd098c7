"""Fractions as decimal numbers."""
from __future__ import annotations

import math
from decimal import ROUND_HALF_EVEN, Context, Decimal

SIGNIFICANT_DIGITS = 6


def decimal(numerator: int, denominator: int) -> str:
    """An integer, or a fraction that is a finite decimal number, exactly: so a counter never steps backwards. Any other
    fraction has six significant digits, or all digits before the point if these are more, rounded half to even."""
    reduced_denominator = denominator // math.gcd(numerator, denominator)
    bits = reduced_denominator.bit_length()
    for factor in (2, 5):
        while reduced_denominator % factor == 0:
            reduced_denominator //= factor
    digits = len(str(abs(numerator) // denominator))
    # a finite decimal number has at most as many digits after the point as its denominator has bits
    precision = digits + bits if reduced_denominator == 1 else max(SIGNIFICANT_DIGITS, digits)
    context = Context(prec=precision, rounding=ROUND_HALF_EVEN)
    text = f"{context.divide(Decimal(numerator), Decimal(denominator)):f}"
    return text.rstrip("0").rstrip(".") if "." in text else text
