#!/usr/bin/env python3
"""Counts how often K is evaluated for one E, by the steps of crates/kepler/src/lib.rt in another language: tools/evaluations.py

The functions have the names and the steps that they have there, so this is no independent reading; but each E is held to tools/model.py's, by the plain search. For each eccentricity it prints
the average over anomalies that are spread evenly, the most that was met there, and the most that was met where E is a round number or close to one. None can be above MOST.
"""
from fractions import Fraction

import model
from model import ONE, QUARTER, TURN

SEGMENT = QUARTER // model.SEGMENTS
TRIALS, FALL, ALL, FEWEST = 8, 2, 32, 4
MOST = 2 * TRIALS + 2 * 3 + ALL  # a guess, three cells that are not sure, and the plain search
ECCENTRICITIES = [0, 0.3, 0.6, 0.95]
SPREAD = 10_000


class Kepler:
    """One eccentricity, and the evaluations of K so far."""

    def __init__(self, e):
        self.e = e
        self.evaluations = 0

    def mean(self, E):
        self.evaluations += 1
        return model.K(self.e, E)

    def start(self, M):
        away = self.e // 2
        return M + away if M < TURN // 2 else M - away

    def nearer(self, M, at):
        low = at - at % SEGMENT
        here = self.mean(low)
        rise = self.mean(low + SEGMENT) - here
        if rise <= 0:
            return at
        missing = M - here
        return in_turn(low + missing * SEGMENT // rise)

    def guess(self, M):
        at = self.start(M)
        for _ in range(TRIALS):
            after = self.nearer(M, at)
            if after // SEGMENT == at // SEGMENT:
                return after
            at = after
        return at

    def yes_up_to(self, M, low):
        return low == 0 or self.mean(low) + FALL <= M

    def no_from(self, M, high):
        return high == TURN or M + FALL < self.mean(high)

    def sure_cell(self, M, g):
        s = FEWEST
        while s < ALL:
            low, high = cell(g, s)
            if self.yes_up_to(M, low) and self.no_from(M, high):
                return low, high
            s = 2 * s
        return 0, TURN

    def eccentric(self, M):
        low, high = self.sure_cell(M, self.guess(M))
        while low + 1 < high:
            middle = (low + high) // 2
            if self.mean(middle) <= M:
                low = middle
            else:
                high = middle
        return low


def in_turn(anomaly):
    return min(max(anomaly, 0), TURN - 1)


def cell(g, s):
    low = g >> s << s
    return low, low + (1 << s)


def evaluations(e, M):
    kepler = Kepler(e)
    E = kepler.eccentric(M)
    if E != model.eccentric(e, M):
        raise ValueError(f"e = {e}, M = {M}: another E than the plain search's")
    if kepler.evaluations > MOST:
        raise ValueError(f"e = {e}, M = {M}: {kepler.evaluations} evaluations")
    return kepler.evaluations


def spread():
    """Anomalies over the turn, not in equal steps."""
    return [n * TURN // SPREAD + n * n % 1009 for n in range(SPREAD)]


def round_ones(e):
    """M where E is a multiple of 2^26 or a few units from it, and where it is a multiple of 2^16, as a sure cell's end must not be."""
    anomalies = {(k << 26) + off for k in range(65) for off in range(-3, 4)} | {n * n % 65_537 << 16 for n in range(3_000)}
    return [M for E in anomalies if 0 <= E <= TURN and 0 <= (M := model.K(e, E)) < TURN]


def row(eccentricity):
    e = model.nearest(Fraction(str(eccentricity)) * ONE)
    evenly = [evaluations(e, M) for M in spread()]
    rounded = [evaluations(e, M) for M in round_ones(e)]
    return f"| {eccentricity} | {sum(evenly) / SPREAD:.1f} | {max(evenly)} | {max(rounded)} |"


if __name__ == "__main__":
    print("| e | average | most, spread evenly | most, at round E |")
    print("|---|---|---|---|")
    for eccentricity in ECCENTRICITIES:
        print(row(eccentricity))
