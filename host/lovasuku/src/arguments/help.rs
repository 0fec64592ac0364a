//! What the help and the manual say beyond a line for each option.

pub const EXAMPLES: &str = "\
Example:
  lovasuku join roads.geojson -o chains.geojson --map map.svg
      joins what meets exactly, and draws the chains
  lovasuku check chains.geojson --of roads.geojson
      says whether chains made elsewhere may be accepted

`lovasuku join --help` and `lovasuku check --help` tell everything.";

pub const JOIN: &str = "\
Join the lines of a delivery into chains.

IN is GeoJSON: a FeatureCollection, or features one after another. LineStrings are joined where
their ends meet: a way that passes over a junction must be split there, since only ends are looked
at. OUT has one feature a chain, with the properties members (ids, or positions), path (the members
in the order of travel, and whether each was turned: drawn against it), count, loop (whether it ends
where it begins), and those that all its members share; its id is its position. Every number is
written so that it is read back the same, bit for bit. Features, parts and chains are counted from 0.

IN may also be what GDAL reads, as a GeoPackage, a FlatGeobuf, a Shapefile or a table of PostGIS, and
OUT what GDAL writes, where its library is installed (Debian's package libgdal32). Properties are
fields then. GeoJSON needs no GDAL.";

pub const JOIN_EXAMPLES: &str = "\
Examples:
  lovasuku join roads.geojson -o chains.geojson --map map.svg
      joins what meets exactly, and draws the chains
  lovasuku join roads.geojson -o chains.geojson --tolerance 2 --bridges bridges.geojson
      closes gaps within cells of 2 units too, and lists every segment made that way
  lovasuku join roads.geojson -o chains-{tolerance}.geojson --tolerance 0,2,5,10
      writes the chains of four zoom levels, chains-0.geojson to chains-10.geojson
  lovasuku join roads.geojson -o chains.geojson --map map.svg --arrows
      shows on the map which way each line was drawn, as property path tells
  lovasuku join roads.geojson -o chains.geojson --tolerance 2 --bend 60 --page page.html
      makes a page that tells of every joint why it was made; page.html#chain=12 leads to a chain
  lovasuku join tile.geojson -o chains.geojson --tolerance 2 --origin -1024,0
      the same with cells counted from a corner that this tile and its neighbours share
  lovasuku join roads.geojson -o chains.geojsonl --bend 40 --class surface --keep longest
      goes straight on at junctions, up to a bend of 40 degrees, within each class; a feature a line
  lovasuku join roads.geojson -o chains.geojson --district municipality=Kolari
      joins the roads of Kolari with one another, and all others with one another
  lovasuku join roads.geojson -o chains.geojson --offset 268
      goes straight on at junctions, up to 268 millimetres of offset per metre run, some 15 degrees
  lovasuku join roads.gpkg -o chains.gpkg
      from a GeoPackage to another, with coordinates, heights, measures and reference system as they are
  lovasuku join 'PG:dbname=roads' --sql 'SELECT * FROM roads ORDER BY id' -o 'PG:dbname=roads' --into chains
      from a table of PostGIS into another

Exit status:
  0  done
  1  the input or a file is at fault; nothing was written
  2  the arguments are at fault; nothing was written";

pub const FORMAT: &str = "\
The format of OUT and --bridges. Without this their names decide: .geojsonl, .ndjson and .jsonl are
geojsonl, .geojsons and .geojsonseq are geojsonseq, .gpkg, .fgb, .shp and .sqlite are GeoPackage,
FlatGeobuf, Shapefile and SQLite, PG:... and postgresql://... are databases, and all else is geojson but
for endings of other formats, as .kml, which are refused. Any other name is one of GDAL's drivers.
  geojson     a FeatureCollection, with the crs and other members of the input's
  geojsonl    a feature a line
  geojsonseq  the same with a record separator before each feature (RFC 8142)
  DRIVER      as ogrinfo --formats lists them: GPKG, FlatGeobuf, 'ESRI Shapefile', KML ..";

pub const INTO: &str = "\
The table that the chains are put into, where OUT is a database. It must not be there. That of --bridges is
bridges, or the name of another table with _bridges behind it. In a file the layer has the file's name.
The field chain tells the id of a chain, which not all formats keep; lists are JSON where a format has
none.";

pub const TOLERANCE: &str = "\
Join ends in one square cell of this side too, in units of the coordinates; 0 joins what meets exactly.
The cells are those of a grid: an end lies in column floor(x / T) and row floor(y / T). So a cell is not
a distance. With T = 10 ends at x = 0 and 9 share a column, ends at 9.999 and 10.001 do not, since a line
of the grid runs between them; and two corners of one cell are up to 14.1 apart. The rules take cells
because each end lies in exactly one, so that which ends meet never depends on the order of the lines.
The summary counts bridges longer than T and gaps below T that stayed open, and --bridges lists them
with their places.
Degrees are units too: for 2 metres at the equator T is about 0.00002.";

pub const TOLERANCES: &str = "\
Several with commas between them, as 0,2,5,10, are joined in one run that joins what meets exactly only
once. The names of all outputs then have {tolerance} in them, which becomes each as it is written.";

pub const ORIGIN: &str = "\
Count the cells of the tolerance from this corner: an end lies in column floor((x - X) / T) and row
floor((y - Y) / T). Tiles that are joined one by one, each in coordinates of its own, have the same cells
where each names one corner that they share, in its own coordinates. Without this it is 0,0. Which ends
meet exactly does not depend on it.";

pub const WINDOW: &str = "\
Write only the chains whose extents overlap or touch this window, X1 to X2 and Y1 to Y2. They are those of
the whole delivery: what is joined does not depend on the window, and neither do the ids of chains. With
them go their bridges, and the gaps at them. The map shows everything, and the window.";

pub const PAGE: &str = "\
Write a page that answers for a route: one file that any browser opens, without a network. It shows the
lines and the chains, the bridges, the gaps that stayed open, the loops and the junctions; of a chain its
lines in the order of travel, and between each two why they are joined; of a junction every pair of ends
with its measure and the library's reason; and which pairs would stand at a stricter limit. A link such as
FILE.html#chain=12 leads to a chain, and so for junction, bridge, gap and line. It holds the lines and
their properties, as far as these are not too many. `lovasuku why` tells the same of two lines.";

pub const WHY: &str = "\
Tell of two lines of a delivery why they are joined, or why they are not.

IN is the delivery that was joined, not its chains, and the options are those of `lovasuku join`: with them
the lines are joined once more, and nothing is written. The answer is a line of where the two are, and a
sentence for each joint between them, or for each place where their ends meet and are not joined: the round,
how many ends meet, the measure of their directions as a number and in degrees, the limit, the place among
the pairs that were selected, and of a pair that was not the reason of the library. --page shows the same.";

pub const WHY_EXAMPLES: &str = "\
Examples:
  lovasuku why roads.geojson H3 H4 --bend 60 --tolerance 2
      tells why the lines H3 and H4 are joined, or why they are not, by these settings
  lovasuku why roads.geojsonl 17 203
      the same of lines without ids, by their positions counted from 0

Exit status:
  0  the question is answered
  1  the input is at fault, or no line has such a name
  2  the arguments are at fault";

pub const OFFSET: &str = "\
The same by a bend as road crews state it: so many millimetres of offset per metre run, a whole number
from 0, straight on, to 1000, which is 45 degrees. The limit that it stands for is worked out by the
verified library and is the same double on every machine; the summary shows it with the degrees.";

pub const DISTRICT: &str = "\
Put the lines that have this value of a property into a second district: a number as it is written, or a
text with or without its quotes. They go through the library beside the others and are never joined with
them, whatever they meet, and neither district's chains depend on what the other brings. A call of the
library holds 2,048 lines and 32,768 points of each.";

pub const EXPLODE: &str = "\
Join the parts of MultiLineStrings like lines of their own. A member is then named by its feature, and
the property parts tells which part of it, 0 for a LineString. Without this a MultiLineString passes
through as it is.";

pub const DROP_EMPTY: &str = "\
Leave out lines without length: no position (else a fault), one, or several at one point. Both ends of
such a line lie at one point, so that two lines that meet there are three or more ends and are not
joined.";

pub const DROP_HEIGHTS: &str = "\
Leave the third number of every position out, and all that follows it. Without this heights ride along:
x and y alone decide what is joined, and lengths are those of x and y; where lines that are joined meet
in one x and y, one of their heights stays, that of the line that was laid first; a position without a
height stays without one. A position of more than three numbers is a fault.";

pub const SQL: &str = "\
The rows that a query to IN gives, in its own SQL: PostGIS's for PG:, SQLite's for a GeoPackage, GDAL's for
files. The order of the rows is that of the lines: which line a chain begins with depends on it, and a
table of a database has none unless the query says ORDER BY.";

pub const KEEP: &str = "\
Which properties of its members a chain has, as they are written:
  shared   those that all members share
  first    all of its first member
  longest  all of its longest member
  list     each as a list with the value of every member, null where it has none";

pub const UNITS: &str = "\
What the coordinates are in. For degrees, which GeoJSON has unless its crs or its numbers say otherwise,
lengths and the map's scale are metres on a sphere of radius 6371008.8. Any other name, as m or ft, is
written behind lengths, which are those of the plane. The tolerance is always in units of the coordinates.";
