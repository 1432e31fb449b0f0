#!/usr/bin/env python3
"""draw CYLINDERS ROWS: a picture (SVG) of a simulated lesson on standard output: where doors and gears stand over time, and the orders and
lamps. CYLINDERS is what `simulate cylinders` writes, ROWS what `replay` writes of `simulate trace` with the same words (request K8, under way:
`simulate` is not there yet). Both are read as they stand; a picture is no proof. Status 1 where the two are not of one lesson."""
import csv
import sys

WIDTH, LEFT, RIGHT, TOP = 900, 110, 14, 34
HIGH, BAR, GAP = 150, 12, 6
ORDERS = ["general_EV", "close_EV", "open_EV", "retract_EV", "extend_EV"]
LAMPS = ["green", "orange", "red"]
INK = {"door": "#1f5fa8", "gear": "#b3541e", "green": "#2e8b57", "orange": "#e08a00", "red": "#c0392b"}


def rows(name):
    with open(name, newline="") as file:
        return [row for row in csv.DictReader(file) if row["step"] and row.get("code") in ("0", "3", "4")]


def runs(points):
    """The stretches over which a value is 1, as pairs of times."""
    begun = None
    for time, on in points:
        if on and begun is None:
            begun = time
        if not on and begun is not None:
            yield begun, time
            begun = None
    if begun is not None:
        yield begun, points[-1][0]


def main():
    if len(sys.argv) != 3:
        sys.exit("use: draw CYLINDERS ROWS > PICTURE.svg")
    stands, shown = rows(sys.argv[1]), rows(sys.argv[2])
    if not stands or [r["step"] for r in stands] != [r["step"] for r in shown]:
        sys.exit("draw: these are not the rows of one lesson")
    taken = [i for i, r in enumerate(stands) if r["code"] == "0"]
    start, last, times = int(stands[0]["stamp"]), 0, []
    for i in taken:
        last += (int(stands[i]["stamp"]) - (start + last)) % 2**32
        times.append(last)
    end = max(times[-1], 1)
    inner = WIDTH - LEFT - RIGHT
    at = lambda ms: f"{LEFT + inner * ms / end:.1f}"
    y = lambda part: f"{TOP + HIGH * (1 - part):.1f}"
    bars = ORDERS + LAMPS
    height = TOP + HIGH + 30 + len(bars) * (BAR + GAP) + 10
    out = [
        f'<svg xmlns="http://www.w3.org/2000/svg" viewBox="0 0 {WIDTH} {height}" width="{WIDTH}" height="{height}" '
        'font-family="DejaVu Sans, sans-serif" font-size="12">',
        f'<rect width="{WIDTH}" height="{height}" fill="#fff"/>',
        f'<text x="{LEFT}" y="18" fill="{INK["door"]}">doors (1 = open)</text>',
        f'<text x="{LEFT + 130}" y="18" fill="{INK["gear"]}">gears (1 = extended)</text>',
    ]
    for part in (0, 0.5, 1):
        out.append(f'<line x1="{LEFT}" x2="{WIDTH - RIGHT}" y1="{y(part)}" y2="{y(part)}" stroke="#ddd"/>')
        out.append(f'<text x="{LEFT - 8}" y="{y(part - 0.03)}" text-anchor="end">{part:g}</text>')
    foot = TOP + HIGH
    for second in range(0, end // 1000 + 1, 5):
        out.append(f'<line x1="{at(second * 1000)}" x2="{at(second * 1000)}" y1="{foot}" y2="{foot + 4}" stroke="#888"/>')
        out.append(f'<text x="{at(second * 1000)}" y="{foot + 17}" text-anchor="middle">{second} s</text>')
    for kind in ("door", "gear"):
        drawn = set()
        for side in ("front", "left", "right"):
            points = " ".join(f"{at(t)},{y(float(stands[i][f'{kind}_{side}']))}" for t, i in zip(times, taken))
            if points not in drawn:
                drawn.add(points)
                out.append(f'<polyline points="{points}" fill="none" stroke="{INK[kind]}" stroke-width="2"/>')
    for n, name in enumerate(bars):
        top = foot + 30 + n * (BAR + GAP)
        out.append(f'<text x="{LEFT - 8}" y="{top + 10}" text-anchor="end">{name}</text>')
        for a, b in runs([(t, shown[i][name] == "1") for t, i in zip(times, taken)]):
            out.append(
                f'<rect x="{at(a)}" y="{top}" width="{inner * (b - a) / end:.1f}" height="{BAR}" fill="{INK.get(name, "#555")}"/>'
            )
    print("\n".join(out + ["</svg>"]))


main()
