"""Harmonic numbers by Python's own fractions, and what each sum is reduced by."""
from fractions import Fraction

from trace import Trace

trace = Trace(["next", "above", "below", "divisor", "rest"], {"next": 1, "above": 0, "below": 1})
total = Fraction(0)
for number in range(1, 9):
    # Both are multiplied out before they are reduced.
    unreduced = total.denominator * number
    total += Fraction(1, number)
    divisor = unreduced // total.denominator
    trace.step({"next": number + 1, "above": total.numerator, "below": total.denominator, "divisor": divisor, "rest": 0})
trace.end()
