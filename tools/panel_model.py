"""The panel in Python, from the rules alone: the published recurrences in whole numbers, the line calls, readings and tolerances.
It shares no code with the program and is written from docs/SOLVERS.md and docs/SURFACE.md; `python3 tools/panel_model.py PROGRAM` prints
what PROGRAM (fit_panel or panel_bench) must print on its arguments."""
import struct
import sys
from pathlib import Path

ROOT = Path(__file__).resolve().parent.parent
SCALE, ONE = 2**16, 2**60
GRADE = 3


def eliminate(k):
    """The line of the solver by elimination."""
    n = len(k)
    w = [0]
    for j in range(1, n + 1):
        diagonal = 5 if j in (1, n) else 4
        w.append(ONE * ONE // (diagonal * ONE - w[j - 1]))
    g = [0]
    for j in range(1, n + 1):
        g.append(w[j] * (6 * SCALE * k[j - 1] - g[j - 1]) // ONE)
    x = [0] * (n + 2)
    for j in range(n, 0, -1):
        x[j] = g[j] - w[j] * x[j + 1] // ONE
    return [(v + SCALE // 2) // SCALE for v in x[1:n + 1]]


def weights(t):
    return [(32 - t)**3, 3 * t**3 - 192 * t**2 + 131072, -3 * t**3 + 96 * t**2 + 3072 * t + 32768, t**3]


class Panel:
    """Rows first. Grids are rows of samples, samples tuples of parts; rows, columns and lines count from 1."""

    def __init__(self, samples):
        self.samples = [list(row) for row in samples]
        self.rows, self.columns = len(samples), len(samples[0])
        self.parts = len(samples[0][0])
        blank = (0,) * self.parts
        self.halves = [[blank] * self.columns for _ in samples]
        self.controls = [[blank] * self.columns for _ in samples]
        self.first = [False] * self.rows
        self.second = [False] * self.columns

    def probe(self, row, column, sample):
        self.samples[row - 1][column - 1] = sample
        self.first[row - 1] = False
        self.second = [False] * self.columns

    def first_line(self, i):
        line = self.samples[i - 1]
        fitted = [eliminate([16 * s[p] for s in line]) for p in range(self.parts)]
        self.halves[i - 1] = list(zip(*fitted))
        self.first[i - 1] = True
        self.second = [False] * self.columns

    def second_line(self, j):
        if not all(self.first):
            return 31
        fitted = [eliminate([row[j - 1][p] for row in self.halves]) for p in range(self.parts)]
        for i, sample in enumerate(zip(*fitted)):
            self.controls[i][j - 1] = sample
        self.second[j - 1] = True
        return None

    def fit(self):
        for i in range(self.rows):
            self.first_line(i + 1)
        for j in range(self.columns):
            self.second_line(j + 1)

    def read(self, x, y):
        """The reading and its tolerance, or the number of the refusal."""
        if not (32 <= x < 32 * self.rows and 32 <= y < 32 * self.columns):
            return 23
        rows = [min(max(x // 32 + a - 1, 1), self.rows) for a in range(4)]
        columns = [min(max(y // 32 + b - 1, 1), self.columns) for b in range(4)]
        if not all(self.second[s - 1] for s in columns):
            return 32
        u, v, whole = weights(x % 32), weights(y % 32), 36 * 2**30
        sums = [sum(u[a] * v[b] * self.controls[rows[a] - 1][columns[b] - 1][p] for a in range(4) for b in range(4)) for p in range(self.parts)]
        return tuple((2 * e + whole) // (2 * whole) for e in sums), GRADE + 3 * GRADE + 1


REASONS = {
    31: "a first line is not current",
    32: "a second line that the reading needs is not current",
}


def opened(file):
    """Sizes, samples and name of a panel file that is known to be one."""
    rows, columns, parts = file[2:5]
    count = rows * columns * parts
    numbers = struct.unpack(f"<{count}i", file[7:7 + 4 * count])
    flat = [numbers[i:i + parts] for i in range(0, count, parts)]
    return [flat[r * columns:(r + 1) * columns] for r in range(rows)], file[9 + 4 * count:].decode()


def shown(sample):
    return " ".join(map(str, sample))


def reading(panel, x, y):
    answer = panel.read(x, y)
    if isinstance(answer, int):
        return f"    at ({x}, {y}): refused {answer}: {REASONS[answer]}"
    return f"    at ({x}, {y}): {shown(answer[0])}, tolerance {answer[1]}"


def second_line(panel, j):
    refused = panel.second_line(j)
    return f"    second line {j}: " + (f"refused {refused}: {REASONS[refused]}" if refused else "ok")


def job(name, samples, title):
    panel = Panel(samples)
    kind = "heights" if panel.parts == 1 else "points"
    yield f'{name}: {panel.rows} by {panel.columns} {kind}, "{title}"'
    yield "  made, rows first; before any line has run:"
    yield reading(panel, 32, 32)
    yield second_line(panel, 1)
    panel.fit()
    yield f"  fit by elimination, grade {GRADE}: ok"
    row, column = panel.rows // 2, panel.columns // 2
    yield f"  a pass along x = {32 * row}, in 32nds; readings in fine units:"
    for k in range(8):
        yield reading(panel, 32 * row, 32 + 4 * k * (panel.columns - 1))
    places = [(r, s) for r in range(1, panel.rows) for s in range(1, panel.columns)]
    worst = max(abs(v - 16 * w) for r, s in places for v, w in zip(panel.read(32 * r, 32 * s)[0], samples[r - 1][s - 1]))
    yield f"  at the samples: {len(places)} readings, 0 refused, at most {worst} fine units from the sample"
    old = samples[row - 1][column - 1]
    new = old[:-1] + (old[-1] - 500 if old[-1] > 0 else old[-1] + 500,)
    yield f"  probe row {row}, column {column}, micrometres {shown(old)} to {shown(new)}: ok"
    panel.probe(row, column, new)
    yield reading(panel, 32 * row, 32 * column)
    yield second_line(panel, 1)
    panel.first_line(row)
    for j in range(panel.columns):
        panel.second_line(j + 1)
    yield "    its first line and every second line: ok"
    yield reading(panel, 32 * row, 32 * column)


def fit_panel():
    folder = ROOT / "crates" / "fit_panel"
    for name in (folder / "args").read_text().split():
        if name == "missing.panel":
            print(f"{name}: cannot be read: No such file or directory (os error 2)")
        elif name == "cut_short.panel":
            print(f"{name}: refused 11, section 2, byte 7: not a panel file")
        else:
            print(*job(name, *opened((folder / "data" / name).read_bytes())), sep="\n")


class Random:
    def __init__(self, seed):
        self.state = seed

    def below(self, limit):
        self.state = (self.state * 6364136223846793005 + 1442695040888963407) % 2**64
        return (self.state >> 33) % limit


def panel_bench():
    work, kind, times = (ROOT / "crates" / "panel_bench" / "args").read_text().split()
    assert work == "read"
    parts = {"heights": 1, "points": 3}[kind]
    random = Random(12409)
    panel = Panel([[tuple(random.below(200001) - 100000 for _ in range(parts)) for _ in range(64)] for _ in range(64)])
    panel.fit()
    random = Random(777)
    total = 0
    for _ in range(int(times)):
        x = 32 + random.below(2016)
        values, tolerance = panel.read(x, 32 + random.below(2016))
        total += values[0] + tolerance
    print(total)


if __name__ == "__main__":
    {"fit_panel": fit_panel, "panel_bench": panel_bench}[sys.argv[1]]()
