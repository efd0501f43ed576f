"""Reads Windows executables (PE images), COFF objects, TE images, minidumps and PDB files by a proved library for C.

    import pe_c

    with pe_c.open("a.dll") as image:
        print(image.headers.machine, [it.name for it in image.sections])
        for library in image.imports:
            print(library.name, [it.name or it.ordinal for it in library.imports])

Offsets are in bytes from the start of the file, RVAs and sizes in bytes. A row, as a section, is a tuple whose fields
have names; help(pe_c.Section) shows them. `from pe_c import pefile` has the names of the module pefile. """
from ._added import Machine as Machine
from ._dump import Dump as Dump, Stack as Stack, walk as walk
from ._edit import ResourceEditor as ResourceEditor, version_info as version_info
from ._image import Image as Image, Mode as Mode, Unwind as Unwind, Version as Version, open as open
from ._kinds import End as End, Kind as Kind, KnownOid as KnownOid, Way as Way
from ._objects import Coff as Coff, Te as Te
from ._part import Error as Error, ImageWarning as ImageWarning, Part as Part, WarningKind as WarningKind
from ._pdb import Pdb as Pdb, PdbFrame as PdbFrame
from ._report import Report as Report
from ._row_names import *  # noqa: F403
from ._signature import Name as Name, Signature as Signature, Signer as Signer, TimeStamp as TimeStamp, X509 as X509

__version__ = "0.1.0"
