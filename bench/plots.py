#!/usr/bin/env python3
"""Draws the figures of README from what the benches printed: bench/results/NAME.txt gives bench/figures/NAME.svg.

A line of a bench is "what was measured: number unit, number unit"; lines of another form, as notes that begin with #, are
passed over. The figures are plain SVG, readable in light and in dark. That of large modules needs wabt beside.

    bench/plots.py
"""
import html, math, os, re

HERE = os.path.dirname(os.path.abspath(__file__))
WIDTH, TOP, ROW, SIGN = 720, 62, 26, 7  # a sign of the text is about so wide
WABT_RUN, WABT_READ = "of wasm-interp's time", "of wasm-validate's time"
STYLE = """
  .paper { fill: #ffffff }
  text { font: 13px sans-serif; fill: #1f2933; stroke: #ffffff; stroke-width: 4; paint-order: stroke }
  .title { font-weight: bold; font-size: 15px }
  .quiet { fill: #52606d; font-size: 12px }
  .grid { stroke: #d9e2ec }
  .axis { stroke: #829ab1 }
  .bar, .dot { fill: #2f6fab }
  .line { stroke: #2f6fab; stroke-width: 2; fill: none }
  .mark { stroke: #b44d12; stroke-width: 1.5 }
  .marked { fill: #b44d12; font-size: 12px }
  @media (prefers-color-scheme: dark) {
    .paper { fill: #11161c }
    text { fill: #e6edf3; stroke: #11161c }
    .quiet { fill: #9aa7b4 }
    .grid { stroke: #2d3640 }
    .axis { stroke: #627384 }
    .bar, .dot { fill: #6cb0f0 }
    .line { stroke: #6cb0f0 }
    .mark { stroke: #f0975a }
    .marked { fill: #f0975a }
  }
"""


def readings(name):
    """What a bench printed: which run it was, and for each thing measured its numbers by their units."""
    path, found = os.path.join(HERE, "results", name + ".txt"), {}
    with open(path, encoding="utf-8") as text:
        run = text.readline().removeprefix("#").strip()
        for line in text:
            measured, colon, numbers = line.strip().partition(": ")
            if colon and not line.startswith("#"):
                values = (re.match(r"([\d,.]*\d) (.+)", value) for value in numbers.split(", "))
                found[measured] = {value[2]: float(value[1].replace(",", "")) for value in values if value}
    return run, found


class Drawing:
    """The parts of a figure, in its own units."""

    def __init__(self, title, height):
        self.height = height
        self.parts = [f"<title>{html.escape(title)}</title>", f"<style>{STYLE}</style>"]
        self.parts.append(f'<rect class="paper" width="{WIDTH}" height="{height}"/>')
        self.text(16, 26, title, "title")

    def text(self, x, y, words, kind="", anchor="start"):
        place = f'class="{kind}" x="{x:.1f}" y="{y:.1f}" text-anchor="{anchor}"'
        self.parts.append(f"<text {place}>{html.escape(words)}</text>")

    def rule(self, x, y, to_x, to_y, kind):
        self.parts.append(f'<line class="{kind}" x1="{x:.1f}" y1="{y:.1f}" x2="{to_x:.1f}" y2="{to_y:.1f}"/>')

    def bar(self, x, y, width):
        self.parts.append(f'<rect class="bar" x="{x:.1f}" y="{y:.1f}" width="{width:.1f}" height="16" rx="2"/>')

    def dot(self, x, y):
        self.parts.append(f'<circle class="dot" cx="{x:.1f}" cy="{y:.1f}" r="4"/>')

    def path(self, points):
        self.parts.append('<polyline class="line" points="' + " ".join(f"{x:.1f},{y:.1f}" for x, y in points) + '"/>')

    def keep(self, name):
        head = f'<svg xmlns="http://www.w3.org/2000/svg" role="img" viewBox="0 0 {WIDTH} {self.height}" width="{WIDTH}">'
        with open(os.path.join(HERE, "figures", name + ".svg"), "w", encoding="utf-8", newline="\n") as out:
            out.write("\n".join([head, *self.parts, "</svg>", ""]))


def ticks(most):
    """Four to eight round numbers from 0 on, the last of which is at least the most."""
    step = 10 ** math.floor(math.log10(most))
    step = next(part for part in (step / 5, step / 2, step, 2 * step) if most / part <= 8)
    return [step * at for at in range(math.ceil(most / step - 1e-9) + 1)]


def bars(name, title, unit, rows, run, mark=None):
    """Rows of (what it is, how much, what stands beside the bar), over an axis in the unit; a mark is (how much, words)."""
    left = 26 + SIGN * max(len(what) for what, _, _ in rows)
    right = 20 + SIGN * max(len(beside) for _, _, beside in rows)
    floor = TOP + ROW * len(rows) + 4
    figure, places = Drawing(title, floor + 66), ticks(max(much for _, much, _ in rows))
    across = lambda much: left + (WIDTH - left - right) * much / places[-1]
    for place in places:
        figure.rule(across(place), TOP - 8, across(place), floor, "grid")
        figure.text(across(place), floor + 16, f"{place:g}", "quiet", "middle")
    if mark:
        figure.rule(across(mark[0]), TOP - 8, across(mark[0]), floor, "mark")
        figure.text(across(mark[0]), TOP - 12, mark[1], "marked", "middle")
    for at, (what, much, beside) in enumerate(rows):
        figure.text(left - 10, TOP + ROW * at + 13, what, "", "end")
        figure.bar(left, TOP + ROW * at, across(much) - left)
        figure.text(across(much) + 6, TOP + ROW * at + 13, beside)
    figure.rule(left, TOP - 8, left, floor, "axis")
    figure.text(left, floor + 34, unit, "quiet")
    figure.text(16, floor + 56, run, "quiet")
    figure.keep(name)


def powers(values):
    """The powers of ten from the least value's to the greatest value's."""
    return range(math.floor(math.log10(min(values))), math.ceil(math.log10(max(values)) - 1e-9) + 1)


def spelled(power):
    """A power of ten in digits."""
    return f"{10**power:,}" if power >= 0 else f"{10**power:g}"


def curves(name, title, across_unit, up_unit, lines, run, right=70):
    """Lines through points of (how far, how high, what stands beside it), over two axes of powers of ten."""
    left, top, floor = 96, 70, 262
    figure, points = Drawing(title, floor + 66), [point for line in lines for point in line]
    wide, high = powers([x for x, _, _ in points]), powers([y for _, y, _ in points])
    across = lambda x: left + (WIDTH - left - right) * (math.log10(x) - wide[0]) / (wide[-1] - wide[0])
    up = lambda y: floor - (floor - top) * (math.log10(y) - high[0]) / (high[-1] - high[0])
    for power in wide:
        figure.rule(across(10**power), top, across(10**power), floor, "grid")
        figure.text(across(10**power), floor + 16, spelled(power), "quiet", "middle")
    for power in high:
        figure.rule(left, up(10**power), WIDTH - right, up(10**power), "grid")
        figure.text(left - 8, up(10**power) + 4, spelled(power), "quiet", "end")
    for line in lines:
        figure.path([(across(x), up(y)) for x, y, _ in line])
    last = -math.inf
    for x, y, beside in sorted(points, key=lambda point: -point[1]):
        figure.dot(across(x), up(y))
        if beside:
            last = max(up(y) - 6, last + 15)
            figure.text(across(x) + 10, last, beside)
    figure.text(left, floor + 34, across_unit, "quiet")
    figure.text(16, top - 18, up_unit, "quiet")
    figure.text(16, floor + 56, run, "quiet")
    figure.keep(name)


def interpreter():
    run, found = readings("interpreter")
    unit = "million steps a second"
    beside = lambda it: f", in {it[WABT_RUN]:.2f} {WABT_RUN}" if WABT_RUN in it else ""
    rows = [(name, it[unit], f"{it[unit]:.0f}{beside(it)}") for name, it in found.items()]
    bars("interpreter", "Programs in WebAssembly", f"{unit} of processor time", rows, run)


def modules():
    run, found = readings("modules")
    compared = [(name.split(" (")[0], it) for name, it in found.items() if WABT_READ in it]
    rows = [(name, it[WABT_READ], f"{it[WABT_READ]:.2f}, {it['s']:.2f} s") for name, it in compared]
    unit = f"{WABT_READ}, and seconds of processor time"
    bars("modules", "Large modules read and typed", unit, rows, run, (1, "wasm-validate"))


def replay():
    run, found = readings("replay")
    over = [(re.search(r"([\d,]+) files$", name), it) for name, it in found.items()]
    speeds = [(int(files[1].replace(",", "")), it["lines a second"]) for files, it in over if files]
    points = [(files, speed, f"{speed:,.0f}") for files, speed in speeds]
    curves("replay", "Replays of 100,000 reads and writes", "files", "lines a second of processor time", [points], run)


def policies(bench, title):
    """The seconds over the size of policies, a line for each shape, whose name stands at its larger one."""
    run, found = readings(bench)
    sized = [(re.fullmatch(r"(\w+), ([\d.]+) MiB", name), it["s"]) for name, it in found.items() if "s" in it]
    shapes = {}
    for name, seconds in sized:
        if name:
            shapes.setdefault(name[1], []).append((float(name[2]), seconds))
    named = lambda shape, at: f"{shape.replace('_', ' ')}, {at[1]:g} s"
    lines = [[(*least, ""), (*most, named(shape, most))] for shape, (least, most) in shapes.items()]
    curves(bench, title, "MiB of the policy", "seconds of processor time", lines, run, 200)


def http():
    """Requests a second, but where connections waited for a worker that never came."""
    run, found = readings("http")
    unit, latest = "requests a second", "ms 99th percentile"
    rows = [(name, it[unit], f"{it[unit]:,.0f}, {it[latest]:g} ms") for name, it in found.items() if unit in it and "waited" not in it]
    bars("http", "GETs and PUTs of 1 KiB over connections that are kept", f"{unit}, and the 99th percentile of their latencies", rows, run)


DRAWN = {
    "http": http,
    "interpreter": interpreter,
    "modules": modules,
    "replay": replay,
    "policy": lambda: policies("policy", "Large policies checked"),
    "flows": lambda: policies("flows", "Flows of large policies, for all identities"),
}
for bench, draw in DRAWN.items():
    if os.path.exists(os.path.join(HERE, "results", bench + ".txt")):
        draw()
