"""CXF sheets of the Italian cadastre, read by the proved library.

    import cxf
    sheet = cxf.Sheet.read(open("Z999_000100.cxf", "rb").read())        # exact mode; cxf.Loose takes more
    for roof in sheet.borders("BUILDING"):
        print(roof.letters, roof.net / 2e6, "square metres,", len(roof.rings()) - 1, "courtyards")
    raster = cxf.Raster.of_sheet(sheet, cell=500)
    open("roofs.png", "wb").write(raster.png())

Coordinates are whole millimetres, areas doubled square millimetres: nothing is rounded on the way. What the library refuses
raises `Refused`, with the number of document 01 and its place."""

from .raster import Grid, Raster
from .refusal import Refused
from .row import Border, Row
from .sheet import Exact, Former, Loose, Mode, Sheet

__all__ = ["Border", "Exact", "Former", "Grid", "Loose", "Mode", "Raster", "Refused", "Row", "Sheet"]
