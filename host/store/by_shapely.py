"""Joins the lines of a layer by Shapely's linemerge, from a GeoPackage to a GeoPackage.

    by_shapely.py IN OUT
"""

import sys

from osgeo import ogr
from shapely import wkb
from shapely.ops import linemerge

ogr.UseExceptions()
source = ogr.Open(sys.argv[1])
roads = source.GetLayer(0)
lines = [wkb.loads(bytes(road.GetGeometryRef().ExportToIsoWkb())) for road in roads]
chains = linemerge(lines).geoms
target = ogr.GetDriverByName("GPKG").CreateDataSource(sys.argv[2])
layer = target.CreateLayer("chains", roads.GetSpatialRef(), ogr.wkbLineString)
target.StartTransaction()
for chain in chains:
    feature = ogr.Feature(layer.GetLayerDefn())
    feature.SetGeometryDirectly(ogr.CreateGeometryFromWkb(chain.wkb))
    layer.CreateFeature(feature)
target.CommitTransaction()
