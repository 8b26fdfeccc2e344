"""The built program, which the scripts here measure."""
import os
import pathlib
import sys


def program():
    """The path of the program: PROGRAM's, or where `make build` puts it."""
    path = os.environ.get("PROGRAM") or pathlib.Path(__file__).resolve().parent.parent / "crates/scimlink/out/scimlink"
    if not os.path.exists(path):
        sys.exit("build the program first: make build")
    return str(path)
