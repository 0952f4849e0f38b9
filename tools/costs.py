#!/usr/bin/env python3
"""Says what a check of a crate costs, function by function.

    python3 tools/costs.py NAME [ROWS]

in the repository's root, with the crates below NAME checked and nothing else running, removes what `rt check` keeps of NAME
(crates/NAME/out/incremental), runs it from nothing as one job, and reads from the files that it leaves when each module was
finished. A row is a function, or all laws, or all definitions, with its seconds and the parts that took most of them: Lts is
what is generated for the code of a function, and grows faster than the function; Proof is its proof. A row of its own is what comes
before the first module: the libraries are loaded and the code is read. Where `rt check` begins with what another checkout on this
machine kept of the crate, the rows are not of a check from nothing, and the script says so.
"""

import collections
import pathlib
import shutil
import subprocess
import sys
import time

ENDING = ".oantt"


def finished(folder):
    """Every module below the folder with the time at which it was finished, in that order."""
    files = folder.rglob(f"*{ENDING}")
    return sorted((file.stat().st_mtime, file.name.removesuffix(ENDING)) for file in files)


def place_of(module, name):
    """The row and the part of it to which a module of the crate belongs."""
    library, *parts = module.removesuffix(".decls").split(".")
    if library != f"Rattle-{name}-proofs":
        return "(definitions and the rest)", parts[-1] if parts else library
    if not parts or parts[0][:1].isupper():
        return "(laws)", parts[-1] if parts else library
    most = len(parts)
    while parts[most - 1][:1].isupper():
        most -= 1
    return ".".join(parts[:most]), ".".join(parts[most:]) or "contract"


def spent(name, began, modules):
    """Of each row its parts with their seconds: from when the module before was finished, and for the first from the start."""
    rows = collections.defaultdict(lambda: collections.defaultdict(float))
    last = began
    for when, module in modules:
        if last == began:
            rows["(before the first module)"]["libraries and code"] = when - last
            last = when
        if module.split(".")[0] in (f"Rattle-{name}", f"Rattle-{name}-specs", f"Rattle-{name}-proofs"):
            row, part = place_of(module, name)
            rows[row][part] += when - last
        last = when
    return rows


def main():
    if len(sys.argv) not in (2, 3) or not pathlib.Path("crates", sys.argv[1]).is_dir():
        print(__doc__)
        return 2
    name = sys.argv[1]
    most = int(sys.argv[2]) if len(sys.argv) == 3 else 20
    crate = pathlib.Path("crates", name)
    folder = crate / "out" / "incremental"
    shutil.rmtree(folder, ignore_errors=True)
    # Where the folder is there, and empty, `rt check` takes nothing of an older text from another checkout.
    folder.mkdir(parents=True)
    began = time.time()
    run = subprocess.run(["rt", "check", "--jobs", "1"], cwd=crate, stdout=subprocess.PIPE, stderr=subprocess.STDOUT, text=True)
    took = time.time() - began
    lines = run.stdout.split("\n")
    verdicts = [line for line in lines if line.startswith("logic=")]
    print(f"{name}: {took:.0f} s, {verdicts[-1] if verdicts else 'no verdict'}")
    for line in lines:
        if line.startswith(f"rt: {name}: begins with"):
            print(f"not from nothing: {line}")
    rows = spent(name, began, finished(folder))
    for row, parts in sorted(rows.items(), key=lambda item: -sum(item[1].values()))[:most]:
        dearest = sorted(parts.items(), key=lambda item: -item[1])[:4]
        print(f"{sum(parts.values()):7.1f}  {row:40} {', '.join(f'{part} {seconds:.1f}' for part, seconds in dearest)}")
    return run.returncode


if __name__ == "__main__":
    sys.exit(main())
