"""Declares the functions of simplex.h to cffi, and links libsimplex.a into the package.

The archive is `bindings/libsimplex.a`, or where `SIMPLEX_ARCHIVE` says; the headers are in `bindings/c/include`, or where `SIMPLEX_INCLUDE`
says."""

import os
import re
from pathlib import Path

from cffi import FFI

BINDINGS = Path(__file__).resolve().parent.parent
INCLUDE = Path(os.environ.get("SIMPLEX_INCLUDE", BINDINGS / "c/include"))
ARCHIVE = Path(os.environ.get("SIMPLEX_ARCHIVE", BINDINGS / "libsimplex.a"))


def declarations() -> str:
    """The header's declarations, without what only a preprocessor reads."""
    text = re.sub(r"/\*.*?\*/", "", (INCLUDE / "simplex.h").read_text(), flags=re.DOTALL)
    text = re.sub(r"^static inline .*?^}", "", text, flags=re.DOTALL | re.MULTILINE)
    text = re.sub(r'^(?:#|SIMPLEX_SIZE|extern "C").*$', "", text, flags=re.MULTILINE)
    names = "#define SIMPLEX_VERSION ...\n#define SIMPLEX_NOBODY ...\n"
    return f"{names}{text.rstrip().removesuffix('}')}\nconst char *simplex_status_text(uint32_t status);\n"


if not ARCHIVE.is_file():
    raise SystemExit(f"simplex_view_state: there is no {ARCHIVE}: make it with bindings/build, or set SIMPLEX_ARCHIVE to its path")
builder = FFI()
builder.cdef(declarations())
builder.set_source(
    "simplex_view_state._library",
    '#include "simplex_status.h"',
    include_dirs=[str(INCLUDE)],
    extra_objects=[str(ARCHIVE)],
    extra_link_args=["-Wl,--exclude-libs,ALL"],
)
