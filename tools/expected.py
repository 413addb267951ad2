"""What the programs line_check and fit_line must print, worked out in exact fractions, apart from the solver.

An answer is the exact solution rounded to the nearest whole number. The solver's own number in finer units lies within 6 / 65536
of the exact one, so where an exact number is that near to a half, either whole number beside it may be the answer: both are tried,
and what is printed must be the same for both.
"""
from fractions import Fraction
from itertools import product
from math import floor
import sys

LIMIT = 5_000_000
NEAR = Fraction(6, 65536)


def exact(k):
    """The exact solution of the line k with doubled ends, by elimination in fractions."""
    n = len(k)
    diagonal = [Fraction(4 + (j == 0) + (j == n - 1)) for j in range(n)]
    right = [Fraction(6 * v) for v in k]
    for j in range(1, n):
        factor = 1 / diagonal[j - 1]
        diagonal[j] -= factor
        right[j] -= factor * right[j - 1]
    x = [Fraction(0)] * n
    x[n - 1] = right[n - 1] / diagonal[n - 1]
    for j in range(n - 2, -1, -1):
        x[j] = (right[j] - x[j + 1]) / diagonal[j]
    return x


def answers(k):
    """The lines of nearest whole numbers: one, but for numbers that are too near to a half."""
    choices = [sorted({floor(v + Fraction(1, 2) - NEAR), floor(v + Fraction(1, 2) + NEAR)}) for v in exact(k)]
    return [list(x) for x in product(*choices)]


def residuals(x, k):
    n = len(k)
    return [x[max(j - 1, 0)] + 4 * x[j] + x[min(j + 1, n - 1)] - 6 * k[j] for j in range(n)]


class Random:
    def __init__(self, seed):
        self.state = seed

    def bits(self):
        self.state = (self.state * 6364136223846793005 + 1442695040888963407) % 2**64
        return self.state >> 33

    def numbers(self):
        return [self.bits() % 10_000_001 - LIMIT for _ in range(64)]

    def extremes(self):
        return [LIMIT if self.bits() % 2 == 0 else -LIMIT for _ in range(64)]


def families():
    lengths = range(2, 65)
    yield "constant", [[s * LIMIT] * n for n in lengths for s in (1, -1)]
    yield "alternating", [[s * LIMIT * (-1) ** j for j in range(n)] for n in lengths for s in (1, -1)]
    yield "single peak", [[s * LIMIT * (j == p) for j in range(n)] for n in lengths for p in range(n) for s in (1, -1)]
    random = Random(1)
    yield "random signs", [random.extremes()[:n] for n in lengths for _ in range(10)]
    yield "random numbers", [random.numbers()[:n] for n in lengths for _ in range(10)]


def line_check():
    print("elimination, grade 3, lines of 2 to 64 numbers up to 5000000 either way")
    for name, lines in families():
        worst = [[max(abs(r) for r in residuals(x, k)) for x in answers(k)] for k in lines]
        low, high = max(map(min, worst)), max(map(max, worst))
        if high > 3:
            sys.exit(f"{name}: a residual of {high}")
        print(f"{name}: {len(lines)} lines, {sum(map(len, lines))} places, beyond the grade 0")
        if not name.startswith("random"):
            if low != high:
                sys.exit(f"{name}: the worst residual is not settled, {low} to {high}")
            print(f"  worst residual {high}")


def show(name, k):
    print(f"{name}: " + " ".join(map(str, k)))
    if not 2 <= len(k) <= 64:
        print("  refused 1: a line has 2 to 64 numbers")
        return
    for place, v in enumerate(k, 1):
        if abs(v) > LIMIT:
            print(f"  refused 3 at place {place}: that number lies beyond 5000000 either way")
            return
    (x,) = answers(k)
    print("  answer: " + " ".join(map(str, x)))
    print("  residuals: " + " ".join(map(str, residuals(x, k))) + ", grade 3")


def fit_line(folder, names):
    for k in ([7, 7], [4, 0], [15, 0, 0], [0, 15, 0]):
        show("worked", k)
    for name in names:
        try:
            words = open(f"{folder}/{name}").read().split()
        except FileNotFoundError:
            print(f"{name}: cannot be read")
            continue
        bad = [i for i, word in enumerate(words, 1) if not word.lstrip("-").isdigit()]
        if bad:
            print(f'{name}: word {bad[0]} is not a whole number of 64 bits: "{words[bad[0] - 1]}"')
        else:
            show(name, list(map(int, words)))


if __name__ == "__main__":
    if sys.argv[1:] == ["line_check"]:
        line_check()
    else:
        fit_line(sys.argv[1], sys.argv[2:])
