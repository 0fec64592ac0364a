"""Networks of lines made by chance from a seed, as texts of GeoJSON."""

import json
import random


def feature(name, coordinates, **properties):
    """A line with an id and properties."""
    geometry = {"type": "LineString", "coordinates": coordinates}
    return {"type": "Feature", "id": name, "properties": properties, "geometry": geometry}


def collection(features):
    return json.dumps({"type": "FeatureCollection", "features": features})


def streets(seed, lines):
    """Lines between neighbours of a grid, whose ends agree exactly, lie in one cell, or lie apart."""
    chance = random.Random(seed)
    side = chance.randint(3, 7)
    offsets = [0, 0, 0, 0, 0.25, 0.75]

    def near(x, y):
        return [3.0 * x + chance.choice(offsets), 3.0 * y + chance.choice(offsets)]

    features = []
    for k in range(lines):
        x, y = chance.randrange(side), chance.randrange(side)
        dx, dy = chance.choice([(1, 0), (0, 1), (1, 1), (0, 0)])
        way = [near(x, y), near(x + dx, y + dy)]
        if chance.random() < 0.3:
            way.insert(1, [(way[0][0] + way[1][0]) / 2 + 0.375, (way[0][1] + way[1][1]) / 2])
        if chance.random() < 0.5:
            way.reverse()
        features.append(feature(f"L{k}", way, kind=chance.choice(["a", "a", "b"])))
    return collection(features)


def roads(lines):
    """Many roads: blocks of streets about the corners of a grid, in millimetres."""
    chance = random.Random(lines)
    side, block = 28, 2 * 28 * 28
    corners = {}

    def corner(district, row, column):
        key = (district, row, column)
        if key not in corners:
            x = 487000 + (district % 6) * 3600 + 120 * column + chance.uniform(0, 60)
            y = 6901000 + (district // 6) * 3600 + 120 * row + chance.uniform(0, 60)
            corners[key] = [round(x, 3), round(y, 3)]
        return corners[key]

    features = []
    for k in range(lines):
        district, within = divmod(k, block)
        row, column = divmod(within // 2, side)
        way = [corner(district, row, column), corner(district, row + k % 2, column + 1 - k % 2)]
        bend = [round((way[0][axis] + way[1][axis]) / 2 + chance.uniform(-9, 9), 3) for axis in (0, 1)]
        end = way[1]
        if chance.random() < 0.04:
            end = [round(end[0] + chance.uniform(-1.5, 1.5), 3), end[1]]
        features.append(feature(f"R{k}", [way[0], bend, end], road=f"Road {k // 40}"))
    return collection(features)
