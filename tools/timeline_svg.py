"""A log as a picture: SVG that needs no browser, for documents and reports. tools/timeline --svg writes it."""

from xml.sax.saxutils import escape

LEFT, TOP, LANE, BAND, GAP = 96, 46, 26, 13, 10
COLOURS = {
    "flow": "#c7d2fe", "handler": "#4f46e5", "thread": "#059669", "until done": "#a7f3d0",
    "depth": "#f59e0b", "masked": "#9ca3af", "pending": "#ef4444", "chain": "#fbcfe8", "asleep": "#bae6fd",
}
BARS = ("flow", "handler", "thread", "until done", "chain", "asleep")
# The bars that aren't of a line; the legend has them if the log does.
OF_ALL_LINES = ("chain", "asleep")
BANDS = ("depth", "masked", "pending")
SHADES = ("#f9fafb", "#f3f4f6")
# Of all words and marks that have no other colour.
INK = "#111827"
ACTORS = {"t": "thread", "c": "processor", "d": "driver"}
GRID = 10
# Wide enough to read a row's place off, and not wider than a page.
WIDEST, NARROWEST, PAGE, LEGEND = 28, 3, 960, 620


class Picture:
    """Shapes by the rows of a log: a row has a column of its own."""

    def __init__(self, last):
        self.last = last
        self.step = max(NARROWEST, min(WIDEST, (PAGE - LEFT) // (last + 1)))
        self.shapes, self.bottom, self.legend = [], TOP, LEGEND

    def across(self, number):
        return LEFT + number * self.step

    def shade(self, top, colour):
        wide = self.across(self.last + 2) - LEFT
        self.shapes.append(f'<rect x="{LEFT}" y="{top}" width="{wide}" height="{LANE - 2}" fill="{colour}"/>')

    def box(self, begin, end, top, height, colour, title):
        self.shapes.append(
            f'<rect x="{self.across(begin)}" y="{top}" width="{(end - begin) * self.step}" height="{height}" '
            f'fill="{colour}"><title>{escape(title)}</title></rect>'
        )

    def text(self, x, y, words, fill=INK, anchor="start"):
        other = (f' fill="{fill}"' if fill != INK else "") + (f' text-anchor="{anchor}"' if anchor != "start" else "")
        self.shapes.append(f'<text x="{x}" y="{y}"{other}>{escape(words)}</text>')

    def whole(self):
        """The file."""
        wide, high = max(self.across(self.last + 2), self.legend), self.bottom + GAP
        head = (
            f'<svg xmlns="http://www.w3.org/2000/svg" width="{wide}" height="{high}" viewBox="0 0 {wide} {high}" '
            f'fill="{INK}" font-family="sans-serif" font-size="11">\n<rect width="{wide}" height="{high}" fill="#ffffff"/>\n'
        )
        return head + "\n".join(self.shapes) + "\n</svg>\n"


def label_of(lane):
    """What stands before a lane: an actor's is named as in a row, others by their word."""
    return f"{ACTORS[lane[0]]} {lane[1:]}" if lane[1:].isdigit() else lane


def said_of(name, line, dev):
    """What a bar shows, in words."""
    if name in OF_ALL_LINES:
        return f"{name}, status {dev & 0xFFFFFFFF}" if name == "chain" else name
    return f"{name} of line {line}" + (f", device {dev}" if dev else "")


def legend(picture, absent):
    x = LEFT
    for name, colour in COLOURS.items():
        if name in absent:
            continue
        picture.shapes.append(f'<rect x="{x}" y="8" width="12" height="12" fill="{colour}"/>')
        picture.text(x + 16, 18, name)
        x += 28 + 7 * len(name)
    picture.legend = max(LEGEND, x)


def grid(picture, bottom):
    for number in range(GRID, picture.last + 1, GRID):
        x = picture.across(number)
        picture.shapes.append(f'<line x1="{x}" y1="{TOP - 12}" x2="{x}" y2="{bottom}" stroke="#e5e7eb"/>')
        if picture.step >= 5 or number % (5 * GRID) == 0:
            picture.text(x + 2, TOP - 5, f"row {number}", "#9ca3af")


def lane_of(picture, actor, top, bars, rows):
    """One actor: its bars, the inner ones above the outer, and a mark a row, which says it."""
    picture.text(8, top + 16, label_of(actor))
    for kind, name in enumerate(BARS):
        inset = 3 if name == "flow" or name in OF_ALL_LINES else 6
        for begin, end, line, dev in bars.get(kind, ()):
            what = said_of(name, line, dev)
            picture.box(begin, end, top + inset, LANE - 2 * inset, COLOURS[name], f"{what}: rows {begin} to {end}")
            # (the first handler begins a row behind the take, and covers what comes after)
            if name == "flow" and 7 * len(str(line)) + 6 <= picture.step:
                picture.text(picture.across(begin) + 4, top + 16, str(line), "#3730a3")
            if name == "handler" and (end - begin) * picture.step > 56:
                picture.text(picture.across(begin) + 4, top + 17, f"device {dev}", "#ffffff")
            if name in OF_ALL_LINES and (end - begin) * picture.step > 7 * len(what):
                picture.text(picture.across(begin) + 4, top + 15, what)
    for number, row in rows:
        x = picture.across(number)
        picture.shapes.append(
            f'<path d="M{x} {top + LANE - 6}v6" stroke="{INK}" stroke-width="2">'
            f"<title>{escape(f'{number}: {row}')}</title></path>"
        )


def bands_of(picture, line, flow, top, done):
    """What stands of one line."""
    picture.text(8, top + 11, f"line {line}" + (f", {flow}" if flow else ""))
    for kind, name in enumerate(BANDS):
        y = top + kind * BAND
        for begin, end, value, _ in done.get((line, kind), ()):
            shown = f"{name} {value}" if name == "depth" else name
            picture.box(begin, end, y, BAND - 3, COLOURS[name], f"{shown}: rows {begin} to {end}")


def ground(picture, lanes, high):
    """What stands behind the bars: a shade a lane, and a line each ten rows."""
    for place in range(lanes):
        picture.shade(TOP + LANE * place, SHADES[place % 2])
    grid(picture, high)


def svg(rows, lanes, bands, last, order):
    """The picture of a log: a lane an actor, in this order, then three bands a line."""
    picture = Picture(last)
    legend(picture, [it for it in OF_ALL_LINES if BARS.index(it) not in {kind for _, kind in lanes.bars}])
    actors, lines = sorted(lanes.names, key=order), sorted(bands.states)
    picture.bottom = TOP + LANE * len(actors) + (GAP + len(BANDS) * BAND) * len(lines)
    ground(picture, len(actors), picture.bottom)
    told = {}
    for lane, number, _ in lanes.marks:
        told.setdefault(lane, []).append((number, rows[number - 1].rstrip("\n")))
    for place, actor in enumerate(actors):
        lane = lanes.names[actor]
        bars = {kind: lanes.bars.get((lane, kind), ()) for kind in range(len(BARS))}
        lane_of(picture, actor, TOP + LANE * place, bars, told[lane])
    for place, line in enumerate(lines):
        top = TOP + LANE * len(actors) + GAP + (GAP + len(BANDS) * BAND) * place
        bands_of(picture, line, bands.flows.get(line, ("", 0))[0], top, bands.done)
    return picture.whole()
