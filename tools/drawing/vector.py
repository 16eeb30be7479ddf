"""A flight as a vector picture: plan above, height profile below; for tools/draw.

The lines flown are two paths whose data are the printed numbers themselves, in millimetres: `plan` has EAST,-NORTH, `profile` has ACROSS,-UP, where
ACROSS is the tick times the path's data-tick. A transform with one scale brings them to the page. Strokes over them are two more paths of the same
kind, `strokes` and `profile-strokes`; data-ends of the first has the ticks of their ends. All else is drawn in the page's own units."""
import math
from decimal import Decimal
from html import escape
from itertools import accumulate

from .braille import metres, multiples, nice

PAGE, LEFT, RIGHT, TOP = 1240, 84, 44, 104
LOWEST, TALLEST, PROFILE = 240, 900, 170
STYLE = """
  svg { background: #fcfcf8; font-family: "DejaVu Sans", Verdana, sans-serif; }
  .title { font-weight: bold; fill: #1c2b36; }
  .summary { font-size: 14px; fill: #48606e; }
  .axis { font-size: 12px; fill: #5d7280; }
  .grid { stroke: #dfe5e2; stroke-width: 1; }
  .frame { fill: #ffffff; stroke: #b9c6c6; stroke-width: 1; }
  .flown { fill: none; stroke: #12608c; stroke-linejoin: round; stroke-linecap: round; }
  .stroked { fill: none; stroke: #d6740f; stroke-linejoin: round; stroke-linecap: round; }
  .end { fill: #d6740f; }
  .second { stroke: #c8452d; stroke-width: 1.6; }
  .minute { font-size: 11px; font-weight: bold; fill: #c8452d; }
  .arrow { fill: #12608c; }
  .waypoint { fill: #ffffff; stroke: #12608c; stroke-width: 1.3; }
  .place { fill: #12608c; }
  .first { fill: #f0a92b; stroke: #7a4d00; stroke-width: 1.5; }
  .many { font-size: 9.5px; fill: #24404f; }
  .few { font-size: 13px; font-weight: bold; fill: #24404f; }
"""


class Frame:
    """A rectangle of the page that shows a range of numbers across, and downwards from one number on (-north or -up), in one scale."""

    def __init__(self, left, top, wide, tall, across, first):
        self.left, self.top, self.wide, self.tall, self.across = left, top, wide, tall, across
        self.scale = wide / (across[1] - across[0])
        self.down = first, first + tall / self.scale

    def at(self, across, down):
        return self.left + (across - self.across[0]) * self.scale, self.top + (down - self.down[0]) * self.scale

    def line(self, points, attributes, kind="flown", wide=2):
        """The line through points, given as the text of their numbers."""
        x, y = self.at(0, 0)
        yield f'<g transform="translate({x:.6f} {y:.6f}) scale({self.scale:.12g})">'
        yield f'<path class="{kind}" {attributes} stroke-width="{wide / self.scale:.6g}" d="M{" L".join(points)}"/>'
        yield "</g>"

    def axes(self, across, down, names):
        """Frame, grid and numbers, at these values and with these two units."""
        right, low = self.left + self.wide, self.top + self.tall
        yield f'<rect class="frame" x="{self.left}" y="{self.top}" width="{self.wide:.2f}" height="{self.tall:.2f}"/>'
        for value, name in across:
            x, _ = self.at(value, self.down[0])
            yield f'<line class="grid" x1="{x:.2f}" y1="{self.top}" x2="{x:.2f}" y2="{low:.2f}"/>'
            yield f'<text class="axis" x="{x:.2f}" y="{low + 17:.2f}" text-anchor="middle">{name}</text>'
        for value, name in down:
            _, y = self.at(self.across[0], value)
            yield f'<line class="grid" x1="{self.left}" y1="{y:.2f}" x2="{right:.2f}" y2="{y:.2f}"/>'
            yield f'<text class="axis" x="{self.left - 8}" y="{y + 4:.2f}" text-anchor="end">{name}</text>'
        yield f'<text class="axis" x="{right:.2f}" y="{low + 34:.2f}" text-anchor="end">{names[0]}</text>'
        yield f'<text class="axis" x="{self.left}" y="{self.top - 8:.2f}">{names[1]}</text>'


class Room:
    """The part of the page that is taken, in squares of four units, so that no number covers another or the line flown."""

    def __init__(self):
        self.taken = set()

    @staticmethod
    def squares(left, top, wide, tall):
        across, down = range(int(left // 4), int((left + wide) // 4) + 1), range(int(top // 4), int((top + tall) // 4) + 1)
        return {(x, y) for x in across for y in down}

    def line(self, points):
        for (x, y), (u, v) in zip(points, points[1:]):
            steps = max(1, math.ceil(max(abs(u - x), abs(v - y)) / 4))
            self.taken.update((int((x + (u - x) * i / steps) // 4), int((y + (v - y) * i / steps) // 4)) for i in range(steps + 1))

    def take(self, left, top, wide, tall):
        """Whether this rectangle was free; it is taken then."""
        wanted = self.squares(left, top, wide, tall)
        if wanted & self.taken:
            return False
        self.taken |= wanted
        return True


def heading(flight, tick):
    """The direction flown at a tick on the page, of length 1; to the right where the flight rests."""
    before, after = flight.places[max(tick - 1, 0)], flight.places[min(tick + 1, flight.ticks)]
    east, south = after[1] - before[1], before[0] - after[0]
    length = math.hypot(east, south)
    return (east / length, south / length) if length else (1.0, 0.0)


def plan_frame(flight):
    """The whole flight with some ground around it, a metre where it stays at a point. A tall one gets more at its sides, a flat one above and below."""
    (south, north), (west, east) = flight.range(0), flight.range(1)
    room, wide = max(north - south, east - west) * 0.06 or 1000, PAGE - LEFT - RIGHT
    tall = min(max(wide * (north - south + 2 * room) / (east - west + 2 * room), LOWEST), TALLEST)
    half = max(east - west + 2 * room, (north - south + 2 * room) * wide / tall) / 2
    middle, height = (west + east) / 2, 2 * half * tall / wide
    return Frame(LEFT, TOP, wide, tall, (middle - half, middle + half), -(north + south) / 2 - height / 2)


def seconds(flight, frame, room):
    """A dash across the line each ten seconds, a longer one each minute, with the time at sixteen of them at most."""
    named = 600 * math.ceil(flight.ticks / 600 / 16)
    for tick in range(100, flight.ticks + 1, 100):
        x, y = frame.at(flight.places[tick][1], -flight.places[tick][0])
        (east, south), half = heading(flight, tick), 11 if tick % 600 == 0 else 7
        ends = (x - half * south, y + half * east), (x + half * south, y - half * east)
        room.line(ends)
        yield '<line class="second" x1="{:.2f}" y1="{:.2f}" x2="{:.2f}" y2="{:.2f}"/>'.format(*ends[0], *ends[1])
        if tick % named == 0:
            yield from beside(room, (x, y), sides(flight, tick), f"{tick // 600} min", "minute", 7.4, 11, 14)


def sides(flight, tick):
    """Directions for a text beside the line: outside a turn, on a straight to the right or above, then inside, then askew."""
    (before, here, after) = (flight.places[min(max(tick + by, 0), flight.ticks)] for by in (-8, 0, 8))
    (east, south), one, two = heading(flight, tick), (here[1] - before[1], before[0] - here[0]), (after[1] - here[1], here[0] - after[0])
    turn = one[0] * two[1] - one[1] * two[0]
    right, left = (-south, east), (south, -east)
    if abs(turn) < 0.03 * math.hypot(*one) * math.hypot(*two):
        outside = max(right, left, key=lambda side: side[0] - side[1])
    else:
        outside = left if turn > 0 else right
    return [outside, right if outside == left else left, (0.7, -0.7), (0.7, 0.7), (-0.7, -0.7), (-0.7, 0.7)]


def beside(room, point, towards, text, kind, letter, tall, gap):
    """Text next to a point, near it or a little farther off; none where there is no room."""
    wide = letter * len(text)
    for away in (gap, gap + 7, gap + 15):
        for side in towards:
            left = point[0] + side[0] * (wide / 2 + away) - wide / 2
            top = point[1] + side[1] * (tall / 2 + away) - tall / 2
            if room.take(left - 2, top, wide + 4, tall):
                yield f'<text class="{kind}" x="{left:.2f}" y="{top + tall - 1:.2f}">{text}</text>'
                return


def arrows(flight, frame):
    """Twelve arrows at about equal distances, clear of waypoints and dashes."""
    points = [frame.at(place[1], -place[0]) for place in flight.places]
    flown = list(accumulate((math.dist(a, b) for a, b in zip(points, points[1:])), initial=0))
    shunned = set().union(*(Room.squares(x - 12, y - 12, 24, 24) for x, y in [points[tick] for tick, _ in flight.waypoints] + points[100::100]))
    for i in range(12 if flight.ticks > 24 else 0):
        aim, reach = (i + 0.5) * flown[-1] / 12, flown[-1] / 40
        near = sorted((abs(length - aim), tick) for tick, length in enumerate(flown) if abs(length - aim) < reach)
        tick = next((tick for _, tick in near if not Room.squares(*points[tick], 0, 0) & shunned), None)
        if tick is not None:
            (x, y), degrees = points[tick], math.degrees(math.atan2(*reversed(heading(flight, tick))))
            yield f'<path class="arrow" d="M8 0 L-5 -5 L-2.5 0 L-5 5 Z" transform="translate({x:.2f} {y:.2f}) rotate({degrees:.1f})"/>'


def waypoints(flight, frame, room):
    """Circles with their numbers; each tells its place to those who point at it."""
    points = [(frame.at(place[1], -place[0]), tick, place) for tick, place in flight.waypoints]
    for number, ((x, y), tick, place) in reversed(list(enumerate(points))):
        size, kind = (5, "first") if number == 0 else (3, "waypoint")
        told = f"waypoint {number}, tick {tick}: north {place[0]}, east {place[1]}, up {place[2]}"
        yield f'<circle class="{kind}" cx="{x:.2f}" cy="{y:.2f}" r="{size}"><title>{told}</title></circle>'
    kind, letter, tall = ("few", 8.5, 11) if len(points) <= 40 else ("many", 6, 8)
    for number, ((x, y), tick, _) in enumerate(points):
        yield from beside(room, (x, y), sides(flight, tick), str(number), kind, letter, tall, 7)


def numbers(step, low, high, sign=1):
    """The values of an axis in a range, with their names in metres; downwards the sign is -1."""
    return [(value, metres(sign * value if value else 0, step)) for value in multiples(step, low, high)]


def plan(flight):
    frame, room = plan_frame(flight), Room()
    room.line([frame.at(place[1], -place[0]) for place in flight.places])
    step = nice(frame.across[1] - frame.across[0], 12)
    yield from frame.axes(numbers(step, *frame.across), numbers(step, *frame.down, -1), ("east, m", "north, m"))
    points = [f"{place[1]},{-place[0]}" for place in flight.places]
    yield from frame.line(points, 'id="plan"')
    yield from dots(flight, [frame.at(place[1], -place[0]) for place in flight.places])
    yield from strokes(flight, frame, points, f'id="strokes" data-ends="{" ".join(map(str, flight.ends))}"')
    for tick in flight.ends:
        north, east, up = flight.places[tick]
        x, y = frame.at(east, -north)
        told = f"end of a stroke, tick {tick}: north {north}, east {east}, up {up}"
        yield f'<circle class="end" cx="{x:.2f}" cy="{y:.2f}" r="2.6"><title>{told}</title></circle>'
    yield from arrows(flight, frame)
    yield from seconds(flight, frame, room)
    yield from waypoints(flight, frame, room)


def strokes(flight, frame, points, attributes):
    """The strokes over the line through all points, where they are asked for."""
    if flight.ends:
        yield from frame.line([points[tick] for tick in flight.ends], attributes, "stroked", 1.2)


def dots(flight, points):
    """The places of a short flight one by one."""
    for x, y in points if flight.ticks <= 100 else []:
        yield f'<circle class="place" cx="{x:.2f}" cy="{y:.2f}" r="2.4"/>'


def profile(flight, top):
    (low, high), ticks, wide = flight.range(2), max(flight.ticks, 1), PAGE - LEFT - RIGHT
    # millimetres across for a tick, in two digits, so that the heights fill some three quarters of the frame
    across = Decimal(f"{max(high - low, 2) / 0.76 / PROFILE * wide / ticks:.1e}")
    frame = Frame(LEFT, top, wide, PROFILE, (0, float(across * ticks)), 0)
    frame.down = -(low + high) / 2 - (frame.down[1] / 2), -(low + high) / 2 + (frame.down[1] / 2)
    step, time = nice(frame.down[1] - frame.down[0], 5), nice(ticks * 100, 14)
    times = [(value * float(across) / 100, metres(value, time)) for value in multiples(time, 0, ticks * 100)]
    yield from frame.axes(times, numbers(step, *frame.down, -1), ("time, s", "height, m"))
    points = [(across * tick, -place[2]) for tick, place in enumerate(flight.places)]
    texts = [f"{x:f},{y}" for x, y in points]
    yield from frame.line(texts, f'id="profile" data-tick="{across:f}"')
    yield from strokes(flight, frame, texts, 'id="profile-strokes"')
    yield from dots(flight, [frame.at(float(x), y) for x, y in points])
    for number, (tick, place) in enumerate(flight.waypoints):
        x, y = frame.at(float(across * tick), -place[2])
        yield f'<circle class="waypoint" cx="{x:.2f}" cy="{y:.2f}" r="2"><title>waypoint {number}, tick {tick}: up {place[2]}</title></circle>'


def picture(flight, title, summary):
    low = TOP + plan_frame(flight).tall + 70
    tall = low + PROFILE + 56
    parts = [
        f'<svg xmlns="http://www.w3.org/2000/svg" viewBox="0 0 {PAGE} {tall:.0f}" width="{PAGE}" height="{tall:.0f}">',
        f"<title>{escape(title or 'A flight')}</title>",
        f"<style>{STYLE}</style>",
        f'<rect width="{PAGE}" height="{tall:.0f}" fill="#fcfcf8"/>',
        f'<text class="title" x="{LEFT}" y="40" style="font-size: {min(19, 1750 / max(len(title), 1)):.1f}px">{escape(title)}</text>',
        f'<text class="summary" x="{LEFT}" y="66">{escape(summary)}</text>',
        *plan(flight),
        *profile(flight, low),
        "</svg>",
    ]
    return "\n".join(parts) + "\n"
