"""The libraries, loaded with the types of their calls."""

import ctypes
import os
from pathlib import Path

from . import _raw


def _loaded(name: str) -> ctypes.CDLL:
    file = f"lib{name}.so.2"
    # The folder that is named, that of a wheel, and that of a prefix, where this is in PREFIX/lib/python3/dist-packages.
    # In /usr/lib the loader looks itself, and chooses the library for the processor.
    here, *above = Path(__file__).resolve().parents
    named = os.environ.get("ETHERPARSE_LIB_DIR")
    for folder in [*([Path(named)] if named else []), here, *above[2:3]]:
        if folder != Path("/usr/lib") and (folder / file).exists():
            return ctypes.CDLL(str(folder / file))
    try:
        return ctypes.CDLL(file)
    except OSError as error:
        raise ImportError(f"{file} isn't found: install it, or name its folder in ETHERPARSE_LIB_DIR ({error})") from error


etherparse = _loaded("etherparse")
_raw.declare_etherparse(etherparse)
netlines = _loaded("netlines")
_raw.declare_netlines(netlines)
