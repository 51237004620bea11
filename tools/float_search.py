#!/usr/bin/env python3
"""The worst difference between the adjustment and the exact fraction that a random search finds.

    python3 tools/float_search.py [COUNT [SEED]]      2,000,000 cases and seed 1 where not given

docs/FLOAT.md has the last run. The adjustment is worked out in Python's floats, which are f64, each
step rounded once, in document 01's order; the exact fraction in whole numbers. A case that is not
as document 02, No. 7 says ends the search with an error.
"""
import random
import sys
from typing import NamedTuple

TOP = 2**32 - 1


class Case(NamedTuple):
    """Settings, a delay above the base, and a packet."""

    gain: float
    increase: int
    target: int
    queue: int
    length: int
    in_flight: int

    @property
    def off(self):
        return self.target - self.queue


def adjustment(case):
    """As document 01 works it out: in f64, left to right, truncated toward zero."""
    step = case.gain * float(case.increase)
    step = step * (float(case.off) / float(case.target))
    step = step * (float(case.length) / float(case.in_flight))
    return int(step)


def exact(case):
    """Numerator and denominator of the exact fraction; the gain is G / 2^62."""
    over, under = case.gain.as_integer_ratio()
    whole_gain, rest = divmod(over * 2**62, under)
    if rest != 0:
        raise ValueError(f"the gain is no whole number over 2^62: {case}")
    return whole_gain * case.increase * case.off * case.length, 2**62 * case.target * case.in_flight


def difference(case):
    """The numerator of |adjustment - exact fraction|, and its denominator, checked against No. 7."""
    answer = adjustment(case)
    numerator, denominator = exact(case)
    apart = abs(answer * denominator - numerator)
    if 64 * apart >= 65 * denominator:
        raise ValueError(f"65/64 of a byte or more: {case}")
    if answer * numerator < 0 or (numerator == 0 and answer != 0):
        raise ValueError(f"the opposite sign, or not 0: {case}")
    return apart, denominator


def up_to(rng, top):
    """From 1 to top, each size as likely as another."""
    return min(top, rng.getrandbits(rng.randint(1, top.bit_length())) + 1)


def anywhere(rng):
    """A case from the whole of document 01's ranges."""
    in_flight = up_to(rng, TOP)
    return Case(
        gain=rng.choice([2.0**-10, 1.0, rng.uniform(2.0**-10, 1.0)]),
        increase=up_to(rng, 2**20),
        target=max(1000, up_to(rng, TOP)),
        queue=up_to(rng, TOP + 1) - 1,
        length=min(in_flight, up_to(rng, 2**20) - 1),
        in_flight=in_flight,
    )


def near_the_top(rng):
    """A case with a large adjustment, of which a rounding is the largest part of a byte."""
    in_flight = rng.randint(1, TOP)
    return Case(
        gain=1.0 - rng.getrandbits(rng.randint(1, 53)) * 2.0**-54,
        increase=2**20 - rng.getrandbits(10),
        target=1000 + rng.getrandbits(6),
        queue=TOP - rng.getrandbits(20),
        length=in_flight - min(in_flight, rng.getrandbits(rng.randint(1, 24))),
        in_flight=in_flight,
    )


def worst(count, seed):
    """The case of the largest difference, of each kind in turn."""
    rng = random.Random(seed)
    found, apart, under = None, 0, 1
    for index in range(count):
        case = (anywhere, near_the_top)[index % 2](rng)
        a, u = difference(case)
        if a * under > apart * u:
            found, apart, under = case, a, u
    return found, apart, under


def decimal(numerator, denominator):
    """A fraction to nine places, cut off."""
    whole, rest = divmod(abs(numerator), denominator)
    sign = "-" if numerator < 0 else ""
    return f"{sign}{whole:,}.{rest * 10**9 // denominator:09}"


def main(words):
    count = int(words[0]) if words else 2_000_000
    seed = int(words[1]) if len(words) > 1 else 1
    case, apart, under = worst(count, seed)
    numerator, denominator = exact(case)
    print(f"{count:,} cases, seed {seed}: the worst difference is {decimal(apart, under)} of a byte")
    print(f"  gain {case.gain!r}, increase {case.increase:,}, target {case.target:,}")
    print(f"  delay above the base {case.queue:,}, so that off is {case.off:,}")
    print(f"  packet length {case.length:,}, in flight {case.in_flight:,}")
    print(f"  exact fraction {numerator} / {denominator}")
    print(f"  which is {decimal(numerator, denominator)}; the adjustment is {adjustment(case):,}")


if __name__ == "__main__":
    main(sys.argv[1:])
