"""The programs that stay: what tools/build and tools/test have proved and built, in the folder built/ at the top.

built/PROGRAM has both builds of a program, by LLVM and by the toolchain's own compiler, and beside them the file `sources`: the
checksum of all that they were made of. Its time is when that checksum was last found to be that of the checkout, so the
launcher needs to look at the sources only where one is newer.
"""

import contextlib
import hashlib
import os
import shutil
import subprocess
import tempfile
import time

from repository import TOP, read_crates, with_all_below

# The programs by the names that they are started by, each with its crate.
PROGRAMS = {"genirq": "irq_prog", "genirq-explore": "explore_prog"}
BUILDS = ("", ".by-rattle")
FOLDER = TOP / "built"
# Clocks of file systems lag: a file that is written just after the look could bear the same time.
LAG = 0.1


def crates_of(program):
    """The crates that a program is made of."""
    return with_all_below(read_crates(), [program])


def checksum(crates, top=TOP):
    """The sources, definitions and proofs of these crates, their lines of crates.txt, and the toolchain's own line."""
    toolchain = shutil.which("rt")
    sum_ = hashlib.sha256(subprocess.run([toolchain, "version"], capture_output=True).stdout if toolchain else b"none")
    for crate in crates.values():
        sum_.update(crate.line.encode() + b"\0")
        for file in crate.files(top):
            sum_.update(str(file.relative_to(top)).encode() + b"\0" + file.read_bytes())
    return sum_.hexdigest()


def out_of(program):
    """Where the gate leaves a program."""
    return TOP / "crates" / program / "out"


def is_of(folder, program, sum_, stamp="sources"):
    """Whether the folder has the program, and its stamp says that it was made of what has this checksum."""
    with contextlib.suppress(OSError):
        return (folder / stamp).read_text() == sum_ and all(os.access(folder / f"{program}{it}", os.X_OK) for it in BUILDS)
    return False


def staying(program):
    """The program that stays, if it was made of the sources as they stand; the launcher then finds it by the times alone."""
    begin = time.time() - LAG
    folder = FOLDER / program
    if not (folder / "sources").is_file() or not is_of(folder, program, checksum(crates_of(program))):
        return None
    with contextlib.suppress(OSError):
        os.utime(folder / "sources", (begin, begin))
    return folder / program


def stamp(folder, name, sum_, begin):
    """Writes a stamp whose time is when the look at the sources began."""
    fresh = folder / f"{name}.new"
    fresh.write_text(sum_)
    os.utime(fresh, (begin - LAG, begin - LAG))
    os.replace(fresh, folder / name)


def put(program, made, sum_, begin):
    """Puts both builds of the folder `made` into built/, if they aren't there. Until all is there, no stamp says that it stays."""
    folder = FOLDER / program
    folder.mkdir(parents=True, exist_ok=True)
    if not is_of(folder, program, sum_):
        (folder / "sources").unlink(missing_ok=True)
    with tempfile.TemporaryDirectory(prefix="new-", dir=folder) as room:
        for name in (f"{program}{it}" for it in BUILDS):
            shutil.copy2(made / name, room)
        for name in (f"{program}{it}" for it in BUILDS):
            os.replace(f"{room}/{name}", folder / name)
    stamp(folder, "sources", sum_, begin)
