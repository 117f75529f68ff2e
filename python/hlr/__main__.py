"""Prints the version, which library is used, and what that was built from: python3 -m hlr"""
import sys

from . import __version__
from .library import built, library, path

print(f"hlr {__version__}")
try:
    library()
except ImportError as fault:
    sys.exit(str(fault))
print(f"library {path()}")
print(built() or "what it was built from isn't told\n", end="")
