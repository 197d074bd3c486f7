"""Finds the program for the scripts of examples/ and bench/: the one that they are given, else that of the environment's SDX, else
the one that `rt ci` builds. Where none is there, `cases` runs inputs by `rt try`, which builds the program with nothing proved.
"""
import os
import re
import shutil
import subprocess
import sys
import tempfile

HERE = os.path.dirname(os.path.abspath(__file__))
FOLDER = os.path.join(HERE, "..", "crates", "sdx")
BUILT = os.path.join(FOLDER, "out", "sdx")


def found(given=None):
    """The path of the program, or None where `rt ci` hasn't built it and no other is named."""
    path = given or os.environ.get("SDX")
    if path and not os.access(path, os.X_OK):
        sys.exit(f"{path} is no program")
    return os.path.abspath(path or BUILT) if os.access(path or BUILT, os.X_OK) else None


def wanted(given=None):
    """The path of the program; ends the script where there is none."""
    path = found(given)
    if path is None:
        sys.exit(f"no program: name one as the last argument or in SDX, or build it with `rt ci` ({os.path.normpath(BUILT)})")
    return path


def cases(inputs):
    """Runs `replay` by `rt try` on each input (name to octets), built once; the exit status and the output of each by its name."""
    if shutil.which("rt") is None:
        sys.exit("neither the program nor `rt` is there: name a program in SDX")
    with tempfile.TemporaryDirectory() as folder:
        for name, octets in inputs.items():
            with open(os.path.join(folder, name), "wb") as file:
                file.write(octets)
        ended = subprocess.run(["rt", "try", "--cases", folder, "--", "replay"], cwd=FOLDER, capture_output=True, check=False)
    statuses = dict(re.findall(rb"^case=(\S+) run=ended status=(\d+) ", ended.stderr, re.M))
    outputs = dict(part.split(b"\n", 1) for part in re.split(rb"^== ", ended.stdout, flags=re.M)[1:])
    lost = [name for name in inputs if name.encode() not in statuses]
    if lost:
        sys.exit(f"`rt try` has no answer for {', '.join(lost)}: {ended.stderr.decode(errors='replace')[-2000:]}")
    return {name: (int(statuses[name.encode()]), outputs.get(name.encode(), b"")) for name in inputs}
