"""Programs and what they were made of: those that are kept packed in bin/kept, and those that bin/build put into out/ of their crates.

A record of programs is a text. Each of its lines that begins with `kit` has behind it a line of the version of the kit by which they
were compiled. Each other line is of a program: its name, the sum of all that it was made of (crates.sum_of_code, with the kit's lines
as the record has them, so that it is found without a kit), and its SHA-256. bin/kept/sums is one, and out/sums of a program's crate
another, of that program alone, with the line `unpacked` where it was taken from bin/kept. What is of other sources than the checkout,
or has another SHA-256 than its record, is never used."""
import contextlib
import hashlib
import os

import crates

KEPT = f"{crates.ROOT}/bin/kept"
SUMS = f"{KEPT}/sums"
# The programs that are kept, and what they are called once they are installed.
PROGRAMS = {"wasm2c_cli": "wasm2c", "crun_cli": "crun", "wast_run": "wast_run"}
# What they need of a machine beside its processor, of which they say it themselves.
LOADER = "/lib64/ld-linux-x86-64.so.2"
GLIBC = 2, 34


class Record:
    """A record of programs."""

    def __init__(self, kit, programs, is_unpacked=False):
        """The lines of the kit's version, of each program its sum and its SHA-256, and whether the programs were taken from bin/kept."""
        self.kit, self.programs, self.is_unpacked = list(kit), dict(programs), is_unpacked

    def is_of_checkout(self, program):
        """Whether a program is recorded, of the sources as they are."""
        return program in self.programs and self.programs[program][0] == crates.sum_of_code(program, self.kit)

    def has_bytes(self, program, found):
        """Whether these are the bytes that are recorded of a program."""
        return program in self.programs and self.programs[program][1] == sum_of_bytes(found)

    def text(self):
        lines = [*(f"kit {it}" for it in self.kit), *(f"{name} {' '.join(sums)}" for name, sums in self.programs.items())]
        return "".join(f"{it}\n" for it in [*lines, *(["unpacked"] if self.is_unpacked else [])])


def record_at(path):
    """The record that a file has, an empty one where there is none or it has another form."""
    try:
        with open(path, encoding="utf-8") as file:
            lines = file.read().splitlines()
    except (OSError, ValueError):
        return Record([], {})
    kit = [it.removeprefix("kit ") for it in lines if it.startswith("kit ")]
    words = [it.split() for it in lines if not it.startswith("kit ")]
    return Record(kit, {it[0]: tuple(it[1:]) for it in words if len(it) == 3}, ["unpacked"] in words)


def record_of(program, found):
    """The record of a program of these bytes, made by the kit that is here of the sources as they are."""
    kit = crates.version_of_kit().splitlines()
    return Record(kit, {program: (crates.sum_of_code(program, kit), sum_of_bytes(found))})


def sum_of_bytes(found):
    return hashlib.sha256(found).hexdigest()


def bytes_at(path):
    """What a file has, None where it cannot be read."""
    try:
        with open(path, "rb") as file:
            return file.read()
    except OSError:
        return None


def built_at(program):
    """Where a program stands once it is built or unpacked."""
    return f"{crates.ROOT}/crates/{program}/out/{program}"


def packed_at(program):
    return f"{KEPT}/{program}.xz"


def put(path, found, mode=0o666):
    """Writes a file under another name and renames it, so that nobody meets half of it."""
    new = f"{path}.new"
    with contextlib.suppress(FileNotFoundError):
        os.unlink(new)
    try:
        with open(os.open(new, os.O_WRONLY | os.O_CREAT | os.O_EXCL, mode), "wb") as file:
            file.write(found)
        os.replace(new, path)
    except OSError as fault:
        with contextlib.suppress(OSError):
            os.unlink(new)
        raise OSError(fault.errno, fault.strerror, path) from fault


def put_program(program, found, record):
    """Puts a program into its crate's out/, and what it was made of beside it. Until both are there it counts as not built."""
    built = built_at(program)
    os.makedirs(os.path.dirname(built), exist_ok=True)
    put(built, found, 0o777)
    put(f"{os.path.dirname(built)}/sums", record.text().encode())


def record_beside(program):
    """The record of what stands in out/ of a program's crate."""
    return record_at(f"{os.path.dirname(built_at(program))}/sums")


def is_built(program):
    """Whether a program stands in its crate's out/, of the sources as they are, and as it was put there."""
    built, record = built_at(program), record_beside(program)
    if program not in record.programs or not os.access(built, os.X_OK):
        return False
    found = bytes_at(built)
    return found is not None and record.has_bytes(program, found) and record.is_of_checkout(program)


def built_by_gate(program):
    """The bytes of the program that `rt ci` built here of the sources as they are, None where there is none. rt writes no record: it makes
    the file anew at each run, so no source may have been touched since."""
    path = f"{built_at(program)}.by-rattle"
    try:
        is_new = os.stat(path).st_mtime > crates.touched(program)
    except OSError:
        return None
    return bytes_at(path) if is_new else None


def why_not_here():
    """Why kept programs do not run on this machine, None where they do."""
    system, machine = os.uname().sysname, os.uname().machine
    if (system, machine) != ("Linux", "x86_64"):
        return f"the programs of bin/kept are for x86_64 Linux, and this is {machine} {system}"
    if not os.path.exists(LOADER):
        return f"the programs of bin/kept need the GNU C library, and {LOADER} is not here"
    try:
        version = os.confstr("CS_GNU_LIBC_VERSION") or ""
        is_old = tuple(int(it) for it in version.removeprefix("glibc ").split(".")[:2]) < GLIBC
    except (ValueError, OSError):
        # A python of another library does not tell.
        return None
    return f"the programs of bin/kept need version 2.34 of the GNU C library, and here is {version}" if is_old else None


def unpacked_by_xz(packed):
    """What xz unpacks, None where it is not there or cannot."""
    import subprocess

    try:
        ran = subprocess.run(["xz", "-dc"], input=packed, stdout=subprocess.PIPE, stderr=subprocess.DEVNULL, check=False)
    except OSError:
        return None
    return ran.stdout if ran.returncode == 0 else None


def unpacked(program):
    """The bytes of a kept program, None where its file is not there or is broken."""
    packed = bytes_at(packed_at(program))
    if not packed:
        return None
    try:
        import lzma
    except ImportError:
        # A python that was built without it.
        return unpacked_by_xz(packed)
    try:
        return lzma.decompress(packed, lzma.FORMAT_XZ)
    except (lzma.LZMAError, EOFError):
        return None


def what_it_is(program):
    """What is said where a kept program is taken."""
    of_it = "the program kept in bin/kept, built from these sources once they were proved"
    return f"{program}: {of_it}; `bin/build --prove {program}` proves them here"


class NotUsed(Exception):
    """Why a kept program is not used."""


def kept_bytes(program, record):
    """The bytes of a kept program, which the record of bin/kept has to have of the sources as they are."""
    if program not in record.programs:
        raise NotUsed("bin/kept has no such program")
    if not record.is_of_checkout(program):
        raise NotUsed("the program of bin/kept was made of other sources")
    why = why_not_here()
    if why:
        raise NotUsed(why)
    found = unpacked(program)
    if found is None:
        raise NotUsed(f"bin/kept/{program}.xz cannot be read or unpacked")
    if not record.has_bytes(program, found):
        raise NotUsed(f"bin/kept/{program}.xz is NOT the program of which bin/kept/sums has the SHA-256")
    return found


def take(program):
    """Puts a kept program into its crate's out/, or raises NotUsed."""
    record = record_at(SUMS)
    found = kept_bytes(program, record)
    put_program(program, found, Record(record.kit, {program: record.programs[program]}, is_unpacked=True))
