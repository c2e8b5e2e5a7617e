"""The preload that refuses calls of a built program, and the bound of the memory that it may have."""

import resource
import subprocess
from pathlib import Path

ROOM = 400 << 20


def compiled(folder):
    """The preload, compiled into a folder; its path. It takes a C compiler, `cc`."""
    made = f"{folder}/refuse_calls.so"
    source = Path(__file__).with_name("refuse_calls.c")
    subprocess.run(["cc", "-shared", "-fPIC", "-O2", "-o", made, source, "-ldl"], check=True)
    return made


def limited():
    """Bounds the memory of this process and those that it starts."""
    resource.setrlimit(resource.RLIMIT_AS, (ROOM, ROOM))
