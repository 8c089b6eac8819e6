"""The picture of a day of the firing log: one drawing (SVG), black on white, for a sheet of A4 in landscape.

It needs nothing but what stands in it: no script, and no font but the one that the reader of the file has.
"""

from html import escape

from logs.firing import FAULT, HOURS, PERSON, QUARTERS, REFUSAL, STOP
from texts import counted

# Four units to a millimetre.
WIDTH, HEIGHT = 1188, 840
EDGE = 48
LEFT, RIGHT = 292, WIDTH - EDGE
TOP, BOTTOM = 210, 540
HOUR = (RIGHT - LEFT) / HOURS
LANES = 610
LANE = 32
IMAGES_SHOWN, FAULTS_SHOWN = 3, 3

UNITS = [(10 ** 12, "in million millions"), (10 ** 9, "in thousand millions"), (10 ** 6, "in millions"),
         (1000, "in thousands"), (1, "")]

ENDS = {STOP: "the program stopped", PERSON: "a person ended it", REFUSAL: "refused", FAULT: "fault"}


def text(x, y, words, size=16, more=""):
    return f'<text x="{x:g}" y="{y:g}" font-size="{size}"{more}>{escape(words)}</text>'


def line(x1, y1, x2, y2, more=""):
    return f'<line x1="{x1:g}" y1="{y1:g}" x2="{x2:g}" y2="{y2:g}" stroke="black"{more}/>'


def mark(end, x, y, kind="", what=""):
    """The mark of an end, around a place. Each kind has a shape of its own."""
    known = f' class="{kind}"' if kind else ""
    said = f"<title>{escape(what)}</title>" if what else ""
    if end == STOP:
        return f'<circle{known} cx="{x:g}" cy="{y:g}" r="4.2" fill="white" stroke="black" stroke-width="1.6">{said}</circle>'
    path, fill = {PERSON: ("M-4,-4H4V4H-4Z", "white"), REFUSAL: ("M-4,-4L4,4M4,-4L-4,4", "none"),
                  FAULT: ("M0,-7L6,5H-6Z", "black")}[end]
    return (f'<path{known} transform="translate({x:g},{y:g})" d="{path}" fill="{fill}" stroke="black" stroke-width="1.6">'
            f"{said}</path>")


def label(x, y, words):
    """A small text in the middle of a place, on white, so that no line goes through it."""
    half = 4 * len(words) + 1
    return (f'<rect x="{x - half:.1f}" y="{y - 13:.1f}" width="{2 * half}" height="16" fill="white"/>'
            + text(x, y, words, 14, ' text-anchor="middle"'))


def tick_of(most):
    """The distance of the axis's lines: 1, 2 or 5 of some power of ten, so that there are at most five."""
    tick = 1
    while tick * 5 < most:
        tick *= 2.5 if str(tick)[0] == "2" else 2
        tick = int(tick)
    return tick


def number(steps, unit):
    """Steps in a unit, short."""
    if unit == 1 or steps % unit == 0:
        return f"{steps // unit:,}"
    if steps >= 100 * unit:
        return f"{steps / unit:,.0f}"
    return f"{steps / unit:.1f}" if steps >= unit / 20 else "<0.1"


def clock(quarter):
    return f"{quarter // 4:02}:{quarter % 4 * 15:02}"


def shortened(words, most=60):
    return words if len(words) <= most else words[:most - 1] + "…"


def heading(day_name, day):
    """The title, the images and the sums."""
    yield text(EDGE, 78, f"Firing log of {day_name}", 34, ' font-weight="bold"')
    lines = [f"{shortened(image.name)}, checksum {image.checksum}, version {image.version}" for image in day.images]
    if len(lines) > IMAGES_SHOWN:
        lines[IMAGES_SHOWN - 1:] = [f"and {len(lines) - IMAGES_SHOWN + 1} more images"]
    times = f", from {day.first[:8]} to {day.last[:8]}" if day.first else ""
    frames, steps = counted(sum(day.frames), "frame"), counted(sum(day.steps), "step")
    lines.append(f"{counted(day.runs, 'run')}, {frames}, {steps}{times}")
    for i, each in enumerate(lines):
        yield text(EDGE, 108 + 23 * i, each, 18)


def bars(day):
    """A bar for each hour that has steps, over an axis with its numbers."""
    most = max(day.steps)
    unit, unit_name = next(each for each in UNITS if most >= each[0] or each[0] == 1)
    tick = tick_of(max(most, 1))
    top = max(tick, -(-most // tick) * tick)
    scale = (BOTTOM - TOP) / top
    for value in range(0, top + 1, tick):
        y = BOTTOM - value * scale
        if value:
            yield line(LEFT, y, RIGHT, y, ' stroke-width="0.6" stroke-dasharray="2 5"')
        yield text(LEFT - 12, y + 5, number(value, unit), 16, ' text-anchor="end"')
    yield text(EDGE, TOP + 18, "steps an hour", 18)
    yield text(EDGE, TOP + 40, unit_name, 16)
    for hour, steps in enumerate(day.steps):
        if steps:
            x, height = LEFT + hour * HOUR, max(steps * scale, 1)
            said = f"{hour:02}:00 to {hour + 1:02}:00: {counted(steps, 'step')} in {counted(day.frames[hour], 'frame')}"
            yield (f'<rect class="bar" x="{x + 4:.1f}" y="{BOTTOM - height:.1f}" width="{HOUR - 8:.1f}" '
                   f'height="{height:.1f}" fill="black"><title>{said}</title></rect>')
            yield label(x + HOUR / 2, BOTTOM - height - 6, number(steps, unit))
    yield line(LEFT, TOP, LEFT, BOTTOM, ' stroke-width="1.5"')
    yield line(LEFT, BOTTOM, RIGHT, BOTTOM, ' stroke-width="1.5"')


def hours():
    """The time of day below the axis; each hour's line goes down through the marks."""
    end = LANES + LANE * (len(ENDS) - 1) + LANE / 2
    for hour in range(HOURS + 1):
        x = LEFT + hour * HOUR
        yield line(x, BOTTOM, x, BOTTOM + 7)
        yield line(x, LANES - LANE / 2, x, end, ' stroke-width="0.5" stroke-dasharray="1 4"')
        yield text(x, BOTTOM + 25, str(hour), 16, ' text-anchor="middle"')
    yield text(EDGE, BOTTOM + 25, "hour of the day", 18)


def lanes(day):
    """A row for each way to end, whose name is the legend of its mark: a mark in each quarter of an hour that has one."""
    for i, (end, name) in enumerate(ENDS.items()):
        y = LANES + LANE * i
        yield line(LEFT, y, RIGHT, y, ' stroke-width="0.5"')
        yield mark(end, EDGE + 8, y)
        yield text(EDGE + 24, y + 6, name, 17)
        yield text(LEFT - 12, y + 6, f"{day.count(end):,}", 17, ' text-anchor="end"')
        for quarter, count in enumerate(day.ends[end]):
            if count:
                said = f"{clock(quarter)} to {clock(quarter + 1)}: {count:,}"
                yield mark(end, LEFT + (quarter + 0.5) * (RIGHT - LEFT) / QUARTERS, y, end, said)
    yield text(RIGHT, LANES + LANE * len(ENDS) - 2, "a mark stands for all of its kind in a quarter of an hour", 13,
               ' text-anchor="end"')


def footing(day):
    """The first faults in words."""
    faults = day.events[FAULT]
    lines = []
    for fault in faults[:FAULTS_SHOWN]:
        kept = "not kept" if fault.kept == "none" else f"kept in {shortened(fault.kept)}"
        name = shortened(fault.image.name, 30)
        lines.append(f"Fault at {fault.clock[:8]}: answer {fault.answer}, counter {fault.counter}, {name}, {kept}")
    if day.count(FAULT) > FAULTS_SHOWN:
        lines[-1] = f"and {day.count(FAULT) - FAULTS_SHOWN + 1:,} more faults, which gpu log tells"
    for i, each in enumerate(lines):
        yield text(EDGE, 758 + 22 * i, each, 16)


def picture_of(day_name, day):
    """The whole drawing."""
    parts = [*heading(day_name, day), *bars(day), *hours(), *lanes(day), *footing(day)]
    names = ", ".join(dict.fromkeys(image.name for image in day.images))
    return "\n".join([
        '<?xml version="1.0" encoding="UTF-8"?>',
        f'<svg xmlns="http://www.w3.org/2000/svg" width="{WIDTH / 4:g}mm" height="{HEIGHT / 4:g}mm" '
        f'viewBox="0 0 {WIDTH} {HEIGHT}" font-family="sans-serif" fill="black" role="img">',
        f"<title>Firing log of {day_name}: {escape(shortened(names))}</title>",
        "<style>@page { size: A4 landscape; margin: 0; }</style>",
        f'<rect width="{WIDTH}" height="{HEIGHT}" fill="white"/>',
        *parts, "</svg>", ""])
