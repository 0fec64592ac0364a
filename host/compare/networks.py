"""Networks of lines out of the files of Debian's packages, as GeoJSON with a feature a row.

    python3 networks.py FOLDER OUT [NAME..]

FOLDER has the packages, each unpacked in a folder of its name; OUT is where NAME.geojsonl is written for
each network, or for each that is named. Wants ogr2ogr (gdal-bin) and gmt on the path. Coordinates are written so that they are read
back the same, bit for bit.
"""

import bz2
import json
import math
import struct
import subprocess
import sys
import tempfile
import xml.etree.ElementTree as xml
from collections import defaultdict
from pathlib import Path


def features(file, *words):
    """The geometry and the properties of each feature that GDAL reads, with x and y as they are. GDAL
    writes a collection, a feature a row."""
    command = ["ogr2ogr", "-f", "GeoJSON", "/vsistdout/", str(file), *words, "-dim", "XY"]
    command += ["-lco", "COORDINATE_PRECISION=17"]
    with subprocess.Popen(command, stdout=subprocess.PIPE, text=True) as rows:
        for row in rows.stdout:
            if row.startswith('{ "type": "Feature"'):
                feature = json.loads(row.rstrip(",\n"))
                yield feature["geometry"], feature["properties"]
    if rows.returncode:
        sys.exit(f"ogr2ogr does not read {file}")


def lines(file, group=None):
    """The lines of a layer, of a group for each value of a property."""
    groups = {}
    for geometry, properties in features(file):
        number = groups.setdefault(properties.get(group), len(groups))
        several = geometry["type"] == "MultiLineString"
        for line in geometry["coordinates"] if several else [geometry["coordinates"]]:
            yield line, number


def rings(file, *words):
    """The rings of the polygons of a layer."""
    for geometry, _ in features(file, *words):
        several = geometry["type"] == "MultiPolygon"
        for polygon in geometry["coordinates"] if several else [geometry["coordinates"]]:
            for ring in polygon:
                yield [tuple(point) for point in ring]


def arcs(file, *words, twice=False):
    """The borders of polygons, cut where three or more meet; those of two polygons once, or twice."""
    all_rings = list(rings(file, *words))
    beside = defaultdict(set)
    for ring in all_rings:
        for one, other in zip(ring, ring[1:]):
            beside[one].add(other)
            beside[other].add(one)
    seen = set()
    for ring in all_rings:
        nodes = [k for k, point in enumerate(ring[:-1]) if len(beside[point]) > 2] or [0]
        loop = ring[nodes[0]:-1] + ring[:nodes[0] + 1]
        cuts = [k - nodes[0] for k in nodes] + [len(loop) - 1]
        for first, last in zip(cuts, cuts[1:]):
            arc = tuple(loop[first:last + 1])
            name = min(arc, arc[::-1])
            if twice or name not in seen:
                seen.add(name)
                yield arc, 0


def polylines(file):
    """The lines of a file of R's package maps: numbers of 32 bits, in radians."""
    data = Path(file).read_bytes()
    count = struct.unpack_from("<i", data, 4)[0]
    for k in range(count):
        offset, points = struct.unpack_from("<iH", data, 8 + 28 * k)
        numbers = struct.unpack_from(f"<{2 * points}f", data, offset)
        yield [(math.degrees(x), math.degrees(y)) for x, y in zip(numbers[::2], numbers[1::2])], 0


def shores(folder, *words):
    """What gmt coast draws, a group for each level."""
    command = ["gmt", "coast", "-Rd", "-Df", "-M", *words, f"--DIR_GSHHG={folder.resolve()}"]
    command += ["--FORMAT_FLOAT_OUT=%.17g"]
    line, group = [], 0
    # Where gmt runs it leaves a file behind.
    with tempfile.TemporaryDirectory() as place, \
            subprocess.Popen(command, stdout=subprocess.PIPE, text=True, cwd=place) as rows:
        for row in rows.stdout:
            if row.startswith(">"):
                if line:
                    yield line, group
                line, group = [], int(row.split()[-1])
            elif not row.startswith("#"):
                line.append(tuple(map(float, row.split())))
    if rows.returncode:
        sys.exit("gmt does not draw")
    yield line, group


def ways(file):
    """The ways of an extract of OpenStreetMap that are roads, cut where they share a node."""
    root = xml.fromstring(bz2.open(file).read())
    places = {n.get("id"): (float(n.get("lon")), float(n.get("lat"))) for n in root.iter("node")}
    roads, times = [], defaultdict(int)
    for way in root.iter("way"):
        if any(tag.get("k") == "highway" for tag in way.iter("tag")):
            nodes = [node.get("ref") for node in way.iter("nd") if node.get("ref") in places]
            roads.append(nodes)
            for node in nodes:
                times[node] += 1
    for nodes in roads:
        first = 0
        for k in range(1, len(nodes)):
            if times[nodes[k]] > 1 or k == len(nodes) - 1:
                yield [places[node] for node in nodes[first:k + 1]], 0
                first = k


def networks(folder):
    """Every network by its package and name."""
    mapnik = folder / "mapnik-doc/usr/share/doc/mapnik-doc/examples/data"
    magics = folder / "libmagics++-data/usr/share/magics"
    pysal = folder / "python3-libpysal/usr/lib/python3/dist-packages/libpysal/examples"
    maps = folder / "r-cran-maps/usr/lib/R/site-library/maps/mapdata"
    mapdata = folder / "r-cran-mapdata/usr/lib/R/site-library/mapdata/mapdata"
    gshhg = folder / "gmt-gshhg-full/usr/share/gmt-gshhg"
    osm = folder / "python-osmnx-doc/usr/share/doc/python-osmnx-doc/examples/tests/input_data"
    flow = folder / "r-cran-ncdfgeom/usr/lib/R/site-library/ncdfgeom/extdata"
    world = folder / "qgis-common/usr/share/qgis/resources/data/world_map.gpkg"
    yield "roads-ontario", lines(mapnik / "roads.shp")
    yield "roads-ontario-classes", lines(mapnik / "roads.shp", "CLASS")
    yield "streets-oakland", ways(osm / "West-Oakland.osm.bz2")
    yield "streets-geodanet", lines(pysal / "geodanet/streets.shp")
    yield "streets-soho", lines(pysal / "snow_maps/Soho_Network.shp")
    yield "rivers-maine", lines(flow / "nhdp_flowline_sample.gpkg")
    yield "rivers-world", lines(magics / "10m/ne_10m_rivers_lake_centerlines.shp")
    yield "rivers-europe", lines(magics / "efas/ExtendedDomain/lines.shp")
    yield "borders-provinces", lines(magics / "10m/ne_10m_admin_1_states_provinces_lines.shp")
    yield "borders-countries", lines(magics / "10m/ne_10m_admin_0_boundary_lines_land.shp")
    yield "polygons-provinces", arcs(world, "states_provinces")
    yield "polygons-provinces-twice", arcs(world, "states_provinces", twice=True)
    yield "polygons-lakes", arcs(mapnik / "ontdrainage.shp")
    yield "polygons-tokyo", arcs(pysal / "tokyo/tokyomet262.shp")
    yield "polygons-chicago", arcs(pysal / "chicago/Chicago77.shp", twice=True)
    for name in ("county", "state", "world", "france", "italy"):
        yield f"maps-{name}", polylines(maps / f"{name}.L")
    for name in ("worldHires", "china", "japan", "nzHires", "rivers"):
        yield f"mapdata-{name}", polylines(mapdata / f"{name}.L")
    yield "gshhg-borders", shores(gshhg, "-Na")
    yield "gshhg-rivers", shores(gshhg, "-Ia")
    yield "gshhg-coast", shores(gshhg, "-W")


def write(file, network):
    """Writes a network."""
    with open(file, "w", encoding="ascii") as rows:
        for line, group in network:
            points = ",".join(f"[{x!r},{y!r}]" for x, y, *_ in line)
            rows.write('{"type":"Feature","properties":{"group":%d},"geometry":'
                       '{"type":"LineString","coordinates":[%s]}}\n' % (group, points))


def main():
    """Writes all networks, or those that are named."""
    folder, out, *names = sys.argv[1:]
    unknown = set(names) - {name for name, _ in networks(Path(folder))}
    if unknown:
        sys.exit(f"there is no network {' '.join(sorted(unknown))}")
    for name, network in networks(Path(folder)):
        if not names or name in names:
            write(Path(out) / f"{name}.geojsonl", network)


main()
