"""Tells what QGIS reads from layers: for each its name, how many features it has, its reference system and its fields.

    by_qgis.py NAME ..

A name is a file, or a table as QGIS names one behind `postgres:`.
"""

import os
import sys

os.environ["QT_QPA_PLATFORM"] = "offscreen"
from qgis.core import QgsApplication, QgsVectorLayer

application = QgsApplication([], False)
application.initQgis()
for name in sys.argv[1:]:
    provider, source = ("ogr", name)
    if name.startswith("postgres:"):
        provider, source = name.split(":", 1)
    layer = QgsVectorLayer(source, "layer", provider)
    if not layer.isValid():
        sys.exit(f"QGIS does not read {name}")
    found = [feature for feature in layer.getFeatures() if feature.hasGeometry()]
    fields = " ".join(field.name() for field in layer.fields())
    print(len(found), layer.crs().authid(), fields)
