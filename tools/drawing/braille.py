"""A flight for the terminal: a plan and a height strip in Braille dots, two by four to a character; for tools/draw."""
import math

# the bit of a dot by its row and column in a character
BITS = ((0x01, 0x08), (0x02, 0x10), (0x04, 0x20), (0x40, 0x80))
COLOURS = {"path": "36", "stroke": "35", "end": "1;35", "mark": "1;33", "label": "33", "axis": "2"}


class Canvas:
    """Dots, and text that covers them, with (0, 0) at the top left."""

    def __init__(self, columns, rows):
        self.columns, self.rows = columns, rows
        self.dots, self.text, self.stroked = {}, {}, set()

    def dot(self, x, y):
        cell = x // 2, y // 4
        self.dots[cell] = self.dots.get(cell, 0) | BITS[y % 4][x % 2]

    def line(self, a, b):
        steps = max(abs(b[0] - a[0]), abs(b[1] - a[1]), 1)
        for i in range(steps + 1):
            self.dot(a[0] + round((b[0] - a[0]) * i / steps), a[1] + round((b[1] - a[1]) * i / steps))

    def path(self, dots):
        self.dot(*dots[0])
        for a, b in zip(dots, dots[1:]):
            if a != b:
                self.line(a, b)

    def strokes(self, dots):
        """Strokes over a path that is drawn already, from dot to dot, and a mark at each end, unless marks would hide the lines."""
        curve, self.dots = self.dots, {}
        self.path(dots)
        self.stroked = set(self.dots)
        for cell, bits in curve.items():
            self.dots[cell] = self.dots.get(cell, 0) | bits
        cells = {(x // 2, y // 4) for x, y in dots}
        if not self.crowded(cells):
            self.text.update({cell: ("end", "+") for cell in cells})

    def crowded(self, cells):
        """Whether marks in these cells would hide the lines."""
        return 3 * len(set(cells)) > len(self.dots) > 60

    def free(self, column, row):
        return 0 <= column < self.columns and 0 <= row < self.rows and (column, row) not in self.dots and (column, row) not in self.text

    def lines(self, colour):
        for row in range(self.rows):
            yield "".join(self.cell((column, row), colour) for column in range(self.columns))

    def cell(self, cell, colour):
        if cell in self.text:
            kind, shown = self.text[cell]
        elif cell in self.dots:
            kind, shown = "stroke" if cell in self.stroked else "path", chr(0x2800 + self.dots[cell])
        else:
            return " "
        return tinted(shown, kind, colour)


def tinted(text, kind, colour):
    return f"\x1b[{COLOURS[kind]}m{text}\x1b[0m" if colour else text


def settled(values):
    """The dots of a row of values: the dot before is kept where a value is within 0.55 of it, so that no line flickers between two dots."""
    dots = []
    for value in values:
        dots.append(dots[-1] if dots and abs(value - dots[-1]) <= 0.55 else round(value))
    return dots


def metres(millimetres, step):
    """A number of an axis: as many decimals as its step needs."""
    decimals = max(0, 3 - math.floor(math.log10(step))) if step < 1000 else 0
    return f"{millimetres / 1000:.{decimals}f}"


def nice(span, count):
    """A step of 1, 2 or 5 times a power of ten that divides a span into at most this many parts, and is a millimetre at least."""
    rough = max(span / max(count, 1), 1)
    power = 10 ** math.floor(math.log10(rough))
    return next(factor * power for factor in (1, 2, 5, 10) if factor * power >= rough * 0.999999)


def multiples(step, low, high):
    return [step * i for i in range(math.ceil(low / step), math.floor(high / step) + 1)]


def mark(canvas, dots):
    """Marks the waypoints and numbers those with room beside them; only these are marked where marks would hide the line."""
    cells = [(x // 2, y // 4) for x, y in dots]
    if not canvas.crowded(cells):
        canvas.text.update({cell: ("mark", "o") for cell in cells})
    numbered = set()
    for number, cell in enumerate(cells):
        place = None if cell in numbered else room_beside(canvas, cell, len(str(number)), numbered)
        if place:
            canvas.text[cell] = "mark", "o"
            canvas.text.update({at: ("label", digit) for at, digit in zip(place, str(number))})
            numbered.update([*place, cell])


def room_beside(canvas, cell, length, numbered):
    """Free cells for a number: right of a cell, left, above or below, clear of other numbers."""
    column, row = cell
    for left, top in ((column + 1, row), (column - length, row), (column, row - 1), (column, row + 1)):
        place = [(left + i, top) for i in range(length)]
        around = {(c + i, r + j) for c, r in place for i in (-1, 0, 1) for j in (-1, 0, 1)}
        if all(canvas.free(*at) for at in place) and not around & numbered:
            return place
    return None


def plan(flight, columns, rows, colour):
    """North up, east to the right, one scale for both."""
    (south, north), (west, east) = flight.range(0), flight.range(1)
    step = nice(north - south, max(rows // 3, 2))
    names = [metres(value, step) for value in multiples(step, south, north)]
    margin = max(map(len, names), default=0) + 2
    wide = max(columns - margin, 4)
    scale = max((east - west) / (2 * wide - 14), (north - south) / (4 * rows - 6), 0.01)
    canvas = Canvas(min(wide, math.ceil((east - west) / scale / 2) + 6), min(rows, math.ceil((north - south) / scale / 4) + 1))
    top = (4 * canvas.rows - 1 - round((north - south) / scale)) // 2
    dots = list(zip(
        settled(4 + (place[1] - west) / scale for place in flight.places), settled(top + (north - place[0]) / scale for place in flight.places)
    ))
    canvas.path(dots)
    if flight.ends:
        canvas.strokes([dots[tick] for tick in flight.ends])
    mark(canvas, [dots[tick] for tick, _ in flight.waypoints])
    at_row = {round(top + (north - value) / scale) // 4: name for value, name in zip(multiples(step, south, north), names)}
    step = nice(east - west, max(canvas.columns // 9, 2))
    stops = {round(4 + (value - west) / scale) // 2: metres(value, step) for value in multiples(step, west, east)}
    caption = "north ↑ and east → in metres" + ("; a stroke ends at each + and each waypoint" if flight.ends else "")
    yield from framed(canvas, caption, at_row, stops, margin, colour)


def framed(canvas, caption, at_row, stops, margin, colour):
    """A canvas with its caption above, and the numbers of its axes to the left and below."""
    yield tinted(caption, "axis", colour)
    for row, line in enumerate(canvas.lines(colour)):
        yield tinted(at_row.get(row, "").rjust(margin - 2) + (" ┤" if row in at_row else " │"), "axis", colour) + line.rstrip()
    line = "".join("┬" if column in stops else "─" for column in range(canvas.columns))
    names = [" "] * (margin + canvas.columns)
    for column, name in stops.items():
        left = min(max(margin + column - len(name) // 2, 0), len(names) - len(name))
        if left >= 0 and all(c == " " for c in names[max(left - 1, 0):left + len(name) + 1]):
            names[left:left + len(name)] = name
    yield tinted(" " * (margin - 1) + "└" + line, "axis", colour)
    yield tinted("".join(names).rstrip(), "axis", colour)


def strip(flight, columns, rows, colour):
    """Height over time."""
    low, high = flight.range(2)
    step = nice(high - low, max(rows - 1, 1))
    values = multiples(step, low, high) or [low]
    names = [metres(value, step if high > low else 1) for value in values]
    margin = max(map(len, names)) + 2
    canvas = Canvas(max(columns - margin, 4), rows)
    tall, wide, last = 4 * rows - 1, 2 * canvas.columns - 1, max(flight.ticks, 1)

    def depth(up):
        return (high - up) * tall / (high - low) if high > low else tall // 2

    dots = list(zip(settled(tick * wide / last for tick in range(len(flight.places))), settled(depth(place[2]) for place in flight.places)))
    canvas.path(dots)
    if flight.ends:
        canvas.strokes([dots[tick] for tick in flight.ends])
    at_row = {round(depth(value)) // 4: name for value, name in zip(values, names)}
    step = nice(last * 100, max(canvas.columns // 12, 2))
    stops = {round(value * wide / last / 100) // 2: metres(value, step) for value in multiples(step, 0, last * 100)}
    yield from framed(canvas, "height in metres over seconds", at_row, stops, margin, colour)
