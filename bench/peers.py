"""The programs of peers/, in Rust, with which run.py compares scimlink. Cargo builds them of crates that
Debian packages as sources, and downloads nothing. They need Rust 1.65 or later, and

    apt-get install libsqlite3-dev librust-csv-dev librust-form-urlencoded-dev librust-httparse-dev \\
        librust-hyper-dev librust-rusqlite-dev librust-serde-derive-dev librust-serde-json-dev \\
        librust-tokio-dev

If something is missing, the program that needs it is left out, and what is missing is printed.
"""
import glob
import os
import pathlib
import shutil
import subprocess
import sys
import tomllib

HERE = pathlib.Path(__file__).resolve().parent
SOURCES = HERE / "peers"
BUILT = HERE.parent / "out" / "peers"
SYSTEM_CRATES = "/usr/share/cargo/registry"


def lacks(folder):
    """What is missing for a program."""
    manifest = tomllib.loads((folder / "Cargo.toml").read_text(encoding="utf-8"))
    lacking = [] if shutil.which("cargo") else ["cargo"]
    for crate in manifest["dependencies"]:
        if not glob.glob(f"{SYSTEM_CRATES}/{crate}-[0-9]*"):
            lacking.append(f"librust-{crate.replace('_', '-')}-dev")
    return lacking


def built(name):
    """The path of a program; if it can't be built, nothing, and the reason is printed."""
    folder = SOURCES / name
    if lacking := lacks(folder):
        print(f"bench/peers/{name} is left out: apt-get install {' '.join(lacking)}", file=sys.stderr)
        return None
    words = ["cargo", "build", "--release", "--offline", "--quiet"]
    run = subprocess.run(words, cwd=folder, env=os.environ | {"CARGO_TARGET_DIR": str(BUILT)}, check=False)
    if run.returncode:
        print(f"bench/peers/{name} is left out: cargo doesn't build it", file=sys.stderr)
        return None
    return BUILT / "release" / name
