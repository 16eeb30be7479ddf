"""The straight strokes of a flight, cut from its printed places as the station cuts them (H1 to H4); for tools/draw."""


def kept(places, tolerance):
    """Whether a stretch, given by its places, is one stroke: on each axis each place is within the tolerance of the line between its ends (H2)."""
    m = len(places) - 1
    return all(
        abs(m * (place[axis] - places[0][axis]) - u * (places[m][axis] - places[0][axis])) <= tolerance * m
        for u, place in enumerate(places) for axis in range(3)
    )


def cut(places, start, tolerance):
    """The ticks at which the strokes of a stretch end, which begins at a tick (H3)."""
    m = len(places) - 1
    if kept(places, tolerance):
        return [start + m]
    return cut(places[:m // 2 + 1], start, tolerance) + cut(places[m // 2:], start + m // 2, tolerance)


def ends(flight, tolerance):
    """The ticks of all ends, from 0 on; the flight knows its waypoints (H4)."""
    ticks = [tick for tick, _ in flight.waypoints] + ([flight.ticks] if flight.closed else [])
    return [0] + [end for first, last in zip(ticks, ticks[1:]) for end in cut(flight.places[first:last + 1], first, tolerance)]
