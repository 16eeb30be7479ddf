"""What a picture of tools/draw has to hold, beside the stand's output; for tools/check-tools."""
import re
from decimal import Decimal
from xml.etree import ElementTree


def places(output):
    return [tuple(map(int, line.split()[1:])) for line in output.decode().splitlines()[1:]]


def check_picture(expect, name, output, picture, points, ends=()):
    """The picture's two lines are the printed places, all of them and none more, and its circles are the waypoints. Its strokes join the places at
    these ticks; without any it has none. Each finding goes to expect."""
    tree, flown = ElementTree.parse(picture), places(output)
    lines = {path.get("id"): path for path in tree.iterfind(".//{*}path[@id]")}
    groups = {group.find("{*}path").get("id"): group.get("transform") for group in tree.iterfind(".//{*}g")}
    number = r"-?[0-9]+(?:\.[0-9]+)?"
    data = {key: line.get("d") for key, line in lines.items()}
    named = {"plan", "profile", *(("strokes", "profile-strokes") if ends else ())}
    right = set(data) == named and all(re.fullmatch(rf"M{number},{number}( L{number},{number})*", d) for d in data.values())
    expect(f"{name}: lines of points", right, data)
    if not right:
        return
    pairs = {key: [tuple(map(Decimal, pair.split(","))) for pair in d[1:].split(" L")] for key, d in data.items()}
    tick = Decimal(lines["profile"].get("data-tick"))
    expect(f"{name}: the plan's data", pairs["plan"] == [(east, -north) for north, east, _ in flown])
    expect(f"{name}: the profile's data", pairs["profile"] == [(tick * i, -up) for i, (_, _, up) in enumerate(flown)] and tick > 0)
    if ends:
        check_strokes(expect, name, tree, {key: pairs[key] for key in named}, list(ends))
    across, down, scale = map(float, re.fullmatch(rf"translate\(({number}) ({number})\) scale\(([0-9.e-]+)\)", groups["plan"]).groups())
    check_axes(expect, name, tree, across, down, scale)
    seen = set()
    for circle in tree.iterfind(".//{*}circle"):
        told = re.fullmatch(r"waypoint (\d+), tick (\d+): north (\S+), east (\S+), up (\S+)", circle.findtext("{*}title", ""))
        if told:
            index, at, north, east, up = map(int, told.groups())
            off = abs(float(circle.get("cx")) - across - scale * east) + abs(float(circle.get("cy")) - down + scale * north)
            expect(f"{name}: waypoint {index}", flown[at] == (north, east, up) and off < 0.02, off)
            seen.add(index)
    expect(f"{name}: the waypoints' count", seen == set(range(points)), sorted(seen))
    dashes = len(tree.findall(".//{*}line[@class='second']"))
    expect(f"{name}: a dash for each ten seconds", dashes == (len(flown) - 1) // 100, dashes)


def check_strokes(expect, name, tree, pairs, ends):
    """The strokes' ends are told, and are points of the two lines; each is marked."""
    told = tree.find(".//{*}path[@id='strokes']").get("data-ends")
    expect(f"{name}: the strokes' ends", told == " ".join(map(str, ends)), told)
    for strokes, line in ("strokes", "plan"), ("profile-strokes", "profile"):
        expect(f"{name}: the {strokes}' data", pairs[strokes] == [pairs[line][tick] for tick in ends])
    marked = [re.match(r"end of a stroke, tick (\d+): ", circle.findtext("{*}title", "")) for circle in tree.iterfind(".//{*}circle")]
    expect(f"{name}: a mark at each end", [int(mark[1]) for mark in marked if mark] == ends, marked)


def check_axes(expect, name, tree, across, down, scale):
    """The plan's numbers, in metres, stand where the line's transform puts them."""
    frame = {key: float(value) for key, value in tree.find(".//{*}rect[@class='frame']").items() if key != "class"}
    low, found = frame["y"] + frame["height"], 0
    for text in tree.iterfind(".//{*}text[@class='axis'][@text-anchor]"):
        x, y = float(text.get("x")), float(text.get("y"))
        if text.get("text-anchor") == "end" and x < frame["x"] and y < low + 5:
            at, off = -float(text.text), (y - 4 - down) / scale / 1000
        elif text.get("text-anchor") == "middle" and abs(y - low - 17) < 0.1:
            at, off = float(text.text), (x - across) / scale / 1000
        else:
            continue
        found += 1
        expect(f"{name}: {text.text} on an axis", abs(at - off) * scale * 1000 < 0.1, (at, off))
    expect(f"{name}: numbers on the axes", found >= 4, found)
