"""Writes bench/cost.svg from target/bench/results.json: the cost of a character against the text's length."""
import json
import math
import os

ROOT = os.path.dirname(os.path.dirname(os.path.abspath(__file__)))
WIDTH, HEIGHT, LEFT, TOP, PLOT_WIDTH, PLOT_HEIGHT = 960, 470, 70, 50, 560, 360
COLOURS = {"all": "#333333", "small": "#b9770e", "worst-1": "#c0392b", "worst-2": "#2471a3", "worst-3": "#1e8449"}
NAMES = {
    "all": "ordinary text, %s words",
    "small": "ordinary text, 700 words",
    "worst-1": "n times ก, {กก, กกก}",
    "worst-2": "n times ก, {ก to 255 times ก}",
    "worst-3": "(254 times ก, ข) repeated, {255 times ก}",
}


def number(x):
    return ("%.2f" % x).rstrip("0").rstrip(".")


class Axis:
    """A scale of powers of ten, from a number to a place."""

    def __init__(self, values, start, length):
        self.low = math.floor(math.log10(min(values)))
        self.high = math.ceil(math.log10(max(values)))
        self.start, self.length = start, length

    def at(self, value):
        return self.start + self.length * (math.log10(value) - self.low) / (self.high - self.low)

    def marks(self):
        return [10**k for k in range(self.low, self.high + 1)]


def text(x, y, words, anchor="start", more=""):
    return '<text x="%s" y="%s" text-anchor="%s"%s>%s</text>' % (number(x), number(y), anchor, more, words)


def line(points, colour, more=""):
    path = " ".join("%s,%s" % (number(x), number(y)) for x, y in points)
    return '<polyline points="%s" fill="none" stroke="%s" stroke-width="2"%s/>' % (path, colour, more)


def grid(across, up):
    for n in across.marks():
        x = number(across.at(n))
        yield '<line x1="%s" y1="%d" x2="%s" y2="%d" stroke="#dddddd"/>' % (x, TOP, x, TOP + PLOT_HEIGHT)
        yield text(across.at(n), TOP + PLOT_HEIGHT + 18, "{:,}".format(n), "middle")
    for cost in up.marks():
        y = number(up.at(cost))
        yield '<line x1="%d" y1="%s" x2="%d" y2="%s" stroke="#dddddd"/>' % (LEFT, y, LEFT + PLOT_WIDTH, y)
        yield text(LEFT - 8, up.at(cost) + 4, "{:,}".format(cost), "end")
    yield text(LEFT + PLOT_WIDTH / 2, TOP + PLOT_HEIGHT + 40, "characters of the text", "middle")
    yield text(LEFT, TOP - 28, "Plain cutting: nanoseconds a character", "start", ' font-weight="bold"')
    yield text(LEFT, TOP - 10, "whole lines: ours; dashed: the Rust, as far as it takes at most 20 s")


def curves(growth, words, across, up):
    for place, (case, name) in enumerate(NAMES.items()):
        points = {"ours": [], "rust": []}
        for row in growth:
            for side in points:
                if row["words"] == case and row[side]:
                    points[side].append((across.at(row["n"]), up.at(row[side] / row["n"])))
        yield line(points["ours"], COLOURS[case])
        yield line(points["rust"], COLOURS[case], ' stroke-dasharray="6 4"')
        y = TOP + 20 + 24 * place
        yield line([(LEFT + PLOT_WIDTH + 15, y - 4), (LEFT + PLOT_WIDTH + 40, y - 4)], COLOURS[case])
        yield text(LEFT + PLOT_WIDTH + 46, y, name.replace("%s", "{:,}".format(words)))


def main():
    results = json.load(open(os.path.join(ROOT, "target/bench/results.json"), encoding="utf-8"))
    growth = [{**row, "ours": min(row["ours"])} for row in results["growth"]]
    words = results["loads"]["all"]["words"]
    costs = [row[side] / row["n"] for row in growth for side in ("ours", "rust") if row[side]]
    across = Axis([row["n"] for row in growth], LEFT, PLOT_WIDTH)
    up = Axis(costs, TOP + PLOT_HEIGHT, -PLOT_HEIGHT)
    font = 'font-family="sans-serif" font-size="12"'
    head = '<svg xmlns="http://www.w3.org/2000/svg" width="%d" height="%d" %s>' % (WIDTH, HEIGHT, font)
    back = '<rect width="%d" height="%d" fill="white"/>' % (WIDTH, HEIGHT)
    parts = [head, back, *grid(across, up), *curves(growth, words, across, up), "</svg>", ""]
    with open(os.path.join(ROOT, "bench", "cost.svg"), "w", encoding="utf-8") as file:
        file.write("\n".join(parts))


if __name__ == "__main__":
    main()
