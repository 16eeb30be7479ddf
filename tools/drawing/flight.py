"""A flight as tools/draw sees it: the places that the stand printed, the waypoints of their sheet, and figures of both."""
import math
import re

HEADER = "tick north east up"


class Unreadable(Exception):
    """What is given is not the stand's output, or not its sheet."""


class Refused(Exception):
    """The stand refused the sheet; the text is its number and word."""


class Flight:
    """`places` has (north, east, up) for each tick; `waypoints` has (tick, place), none without a sheet. Where strokes are asked for, `ends` has the
    ticks of their ends, and `tolerance` is theirs."""

    def __init__(self, places):
        self.places, self.waypoints, self.closed = places, [], False
        self.ends, self.tolerance = [], None

    @property
    def ticks(self):
        return len(self.places) - 1

    def range(self, axis):
        values = [place[axis] for place in self.places]
        return min(values), max(values)


def output_read(text):
    """The flight of the stand's output (T2, T3), or an exception that says which line is not as it should be."""
    lines = text.split("\n")
    refusal = re.fullmatch(r"refused ([0-9]+ [a-z]+)\n", text)
    if refusal:
        raise Refused(refusal[1])
    if not text:
        raise Unreadable("the input is empty; draw wants what ./stand NAME prints")
    if lines[0] != HEADER:
        raise Unreadable(f"line 1: expected '{HEADER}', found {ascii(lines[0][:60])}")
    if lines[-1] != "":
        raise Unreadable(f"line {len(lines)}: the line feed at its end is missing")
    if len(lines) == 2:
        raise Unreadable("line 2: expected the place of tick 0, found the end")
    return Flight([place_read(line, tick) for tick, line in enumerate(lines[1:-1])])


def place_read(line, tick):
    found = re.fullmatch(r"(0|[1-9][0-9]*) (-?[0-9]{1,19}) (-?[0-9]{1,19}) (-?[0-9]{1,19})", line)
    if not found or int(found[1][:20]) != tick:
        raise Unreadable(f"line {tick + 2}: expected '{tick} NORTH EAST UP', found {ascii(line[:60])}")
    return int(found[2]), int(found[3]), int(found[4])


def sheet_read(flight, sheet):
    """Gives the flight the waypoints of a sheet (S1 to S9). They have to be where the flight is at their ticks (P5)."""
    if len(sheet) < 8 or sheet[5] > 2:
        raise Unreadable("this is not a sheet")
    points = int.from_bytes(sheet[6:8], "big")
    legs = points if sheet[5] == 2 else points - 1
    if len(sheet) != 8 + 2 * legs + 12 * points + (24 if sheet[5] == 1 else 0):
        raise Unreadable("this is not a sheet: its length is not that of its counts")
    tick, first, places = 0, 8 + 2 * legs, flight.places
    for i in range(points):
        at = first + 12 * i
        place = tuple(int.from_bytes(sheet[at + k:at + k + 4], "big", signed=True) for k in (0, 4, 8))
        if tick >= len(places) or places[tick] != place:
            raise Unreadable(f"this is not the sheet of the places given: waypoint {i} is not where tick {tick} is")
        flight.waypoints.append((tick, place))
        tick += int.from_bytes(sheet[8 + 2 * i:10 + 2 * i], "big") if i < legs else 0
    if tick != flight.ticks:
        raise Unreadable(f"this is not the sheet of the places given: its last tick is {tick}, theirs {flight.ticks}")
    flight.closed = sheet[5] == 2


def off_line(point, start, end):
    """Twice the area between a point and two others in plan: the point's distance from their line, times their distance."""
    return abs((point[0] - start[0]) * (end[1] - start[1]) - (point[1] - start[1]) * (end[0] - start[0]))


def straight(points):
    """Whether points lead ahead along one line in plan, each within a millimetre of it: waypoints are whole millimetres."""
    start, end = points[0], points[-1]
    length2 = (end[0] - start[0]) ** 2 + (end[1] - start[1]) ** 2
    steps = zip(points, points[1:])
    ahead = all((b[0] - a[0]) * (end[0] - start[0]) + (b[1] - a[1]) * (end[1] - start[1]) > 0 for a, b in steps)
    return ahead and all(off_line(point, start, end) ** 2 <= length2 for point in points)


def lanes(flight):
    """The first and last tick of each lane: three or more waypoints, one behind the other, that are straight in plan, as many as are."""
    points, count = list(flight.waypoints), len(flight.waypoints)
    if flight.closed:
        # a second round, and the first corner to start from, so that a lane through waypoint 0 is seen whole
        points += [(tick + flight.ticks, place) for tick, place in points]
        corner = next((i for i in range(1, count) if not straight([place for _, place in points[i - 1:i + 2]])), 0)
        points = points[corner:corner + count + 1]
    found, i = [], 0
    while i + 2 < len(points):
        j = i + 1
        while j + 1 < len(points) and straight([place for _, place in points[i:j + 2]]):
            j += 1
        if j >= i + 2:
            found.append((points[i][0], points[j][0]))
        i = j
    return found


def bow(flight):
    """How far, in millimetres, a place on a lane is off the line between the lane's first and last waypoint at most; None without a lane."""
    found = lanes(flight)

    def at(tick):
        return flight.places[tick % flight.ticks if flight.closed else tick]

    def off(start, end):
        length = math.hypot(at(end)[0] - at(start)[0], at(end)[1] - at(start)[1])
        return max(off_line(at(tick), at(start), at(end)) for tick in range(start, end + 1)) / length

    return max((off(start, end) for start, end in found), default=None)


def summary(flight):
    """Length, speed, climb, ticks, bow and strokes in one line. Ten ticks are a second, so a millimetre a tick is a hundredth of a metre a second."""
    steps = list(zip(flight.places, flight.places[1:]))
    lengths = [math.dist(a, b) for a, b in steps]
    climb = max((b[2] - a[2] for a, b in steps), default=0)
    parts = [
        f"length {sum(lengths) / 1000:.2f} m",
        f"greatest speed {max(lengths, default=0) / 100:.2f} m/s",
        f"greatest climb {max(climb, 0) / 100:.2f} m/s",
        f"{flight.ticks} ticks",
    ]
    most, strokes = bow(flight), len(flight.ends) - 1
    parts += [] if most is None else [f"bow {most / 1000:.2f} m"]
    parts += [f"{strokes} stroke{'' if strokes == 1 else 's'} at {flight.tolerance} mm"] if flight.ends else []
    return ", ".join(parts)
