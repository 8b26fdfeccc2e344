#!/usr/bin/env python3
"""Runs the tests in Rattle, tests/scenarios, and prints what each came to.

    tools/scenarios.py

Nothing that is promised rests on the proof of a test, and a proved test takes as long as any other function; the proof
of a run that names the types of files doesn't end. So the tests are built without proofs, by `rt try`. It runs them
with checks instead, which stop them at an overflow or an index out of bounds. That takes some minutes. CI does it last.
"""
import pathlib
import re
import shutil
import subprocess
import sys
import tempfile

ROOT = pathlib.Path(__file__).resolve().parent.parent
TESTS = ROOT / "tests"
SCENARIOS = TESTS / "scenarios"
SOURCES = sorted(SCENARIOS.rglob("*.rattle"))
SCHEDULES = [it for name in ("schedules", "reluctant") for it in sorted((TESTS / name).glob("*.schedule"))]
LIBRARIES = (
    "scim_key scim_version scim_resource scim_filter scim_message provider_core provider_store http_text scim_http"
    " timed_streams scim_client source_csv mapping journal_core journal_store connector_core snapshots world_sim connection"
    " sqlite sqlite_std_file anyhow"
)
# Seconds that the tests may take
MOST_SECONDS = "600"
A_TEST = re.compile(r"^ *#\[test\]$", re.M)


def lay_out(room):
    """Copies what the tests stand on, and the tests as a crate, into a repository of its own."""
    lines = (ROOT / "crates.txt").read_text(encoding="utf-8").splitlines()
    lines = [line for line in lines if not line.startswith("#")]
    (room / "crates.txt").write_text("".join(f"{it}\n" for it in [*lines, f"scenarios: {LIBRARIES}"]), encoding="utf-8")
    shutil.copy(ROOT / "HANDLES", room)
    for line in lines:
        for part in ("src", "specs"):
            folder = pathlib.Path("crates") / line.partition(":")[0] / part
            if (ROOT / folder).is_dir():
                shutil.copytree(ROOT / folder, room / folder)
    crate = room / "crates/scenarios"
    for source in SOURCES:
        file = (crate / "src" / source.relative_to(SCENARIOS)).with_suffix(".rt")
        file.parent.mkdir(parents=True, exist_ok=True)
        shutil.copy(source, file)
    (room / "names").write_text("".join(f"{it.stem}\n" for it in SCHEDULES), encoding="utf-8")
    return crate


def run(room):
    """Runs the tests, with the schedules beside them. Returns what was printed, and the status."""
    crate = lay_out(room)
    files = {"schedules": room / "names"}
    files |= {it.name: it for schedule in SCHEDULES for it in (schedule, schedule.with_suffix(".out"))}
    words = ["--steps", "1", "--test", "--seconds", MOST_SECONDS]
    words += [word for name, file in files.items() for word in ("--data", f"{name}={file}")]
    how = {"cwd": crate, "stdin": subprocess.DEVNULL, "capture_output": True, "text": True}
    return subprocess.run(["rt", "try", *words], check=False, **how)


def main():
    count = sum(len(A_TEST.findall(it.read_text(encoding="utf-8"))) for it in SOURCES)
    with tempfile.TemporaryDirectory() as room:
        ran = run(pathlib.Path(room))
    print(ran.stdout, ran.stderr, sep="", end="")
    if ran.returncode or f"test result: ok. {count} passed; 0 failed; 0 ignored" not in ran.stdout:
        print(f"{count} tests should have passed")
        return 1
    return 0


if __name__ == "__main__":
    sys.exit(main())
