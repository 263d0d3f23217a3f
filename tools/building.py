"""How bin/build and bin/install come to a program: the one that is kept in bin/kept, the one that the gate built here, or one that is
proved and built now. Each of the first two only if it is of the sources as they are."""
import contextlib
import errno
import fcntl
import os
import shutil
import subprocess
import sys
import tempfile
import time

import crates
import kept
from proofs import Proofs, say, span

# The status where a program is not there and cannot be built.
FAILED = 70
NO_KIT = "to prove and build it takes the Rattle kit, whose command rt is not in PATH"


def link(made, to):
    """Links an object file to a program. Answers whether it did, and says why not."""
    kit = crates.kit()
    words = [f"{kit}/bin/rattle-link", "--target", "x86_64-unknown-linux-gnu", "--toolchain", f"{kit}/toolchain", "-o", to, made]
    how = {"stdin": subprocess.DEVNULL, "stdout": subprocess.PIPE, "stderr": subprocess.STDOUT, "check": False}
    linked = subprocess.run([*words, f"{kit}/c/libos_c.a", f"{kit}/c/liblibc_c.a"], **how)
    if linked.returncode:
        say(f"{linked.stdout.decode(errors='replace')}{os.path.basename(to)} was not linked")
    return linked.returncode == 0


def build(program):
    """Proves what is left to prove of a program and those below it, and puts it into its out/. Answers whether it did."""
    began = time.time()
    folder = os.path.dirname(kept.built_at(program))
    os.makedirs(folder, exist_ok=True)
    with tempfile.TemporaryDirectory(dir=folder) as work:
        proofs = Proofs(crates.below(program), work)
        if not proofs.run() or not link(proofs.to(program), f"{work}/{program}"):
            return False
        found = kept.bytes_at(f"{work}/{program}")
    record = kept.record_of(program, found)
    if crates.touched(program) >= began:
        # Nobody knows of which sources it is. Without its line in the record it counts as not built.
        say(f"sources of {program} were touched meanwhile: the next call builds it again")
        record.programs.clear()
    kept.put_program(program, found, record)
    say(f"built crates/{program} in {span(time.time() - began)}")
    return True


@contextlib.contextmanager
def lock():
    """Waits until no other call builds or unpacks in this checkout, and has none begin meanwhile."""
    folder, began = os.open(f"{crates.ROOT}/crates", os.O_RDONLY), time.monotonic()
    try:
        # To unpack takes no second, to build takes minutes.
        while time.monotonic() < began + 1:
            with contextlib.suppress(BlockingIOError):
                fcntl.flock(folder, fcntl.LOCK_EX | fcntl.LOCK_NB)
                break
            time.sleep(0.05)
        else:
            say("another call of bin/build is at work in this checkout: this one waits for it")
            fcntl.flock(folder, fcntl.LOCK_EX)
        yield
    finally:
        os.close(folder)


def take(program):
    """Has a program that is not built stand in its out/. Answers whether it does."""
    try:
        kept.take(program)
    except kept.NotUsed as cause:
        why = str(cause)
    else:
        say(kept.what_it_is(program))
        return True
    if not shutil.which("rt"):
        say(f"{program} is not built: {why}, and {NO_KIT}")
        return False
    found = kept.built_by_gate(program)
    if found is None:
        say(f"{program}: {why}, so it is proved and built here")
        return build(program)
    kept.put_program(program, found, kept.record_of(program, found))
    say(f"{program}: {why}; this one `rt ci` proved and built here of these sources")
    return True


def compare(program):
    """Says whether a program that was built has the bytes of the kept one. Answers the status."""
    record, done = kept.record_at(kept.SUMS), f"{program}: proved and built here"
    if record.has_bytes(program, kept.bytes_at(kept.built_at(program))):
        say(f"{done}, the same bytes as the kept program")
        return 0
    if program not in record.programs:
        say(f"{done}; none is kept")
        return 0
    if not record.is_of_checkout(program):
        say(f"{done}; the kept program was made of other sources")
        return 0
    here = crates.version_of_kit().splitlines()
    of_kit = "" if record.kit == here else f", by another kit than the one that made the kept program ({', '.join(record.kit)})"
    say(f"{done}, and these are NOT the bytes of the kept program of the same sources{of_kit}")
    return 1


@contextlib.contextmanager
def faults_said(program):
    """Says what the system refused in one line, and ends with FAILED."""
    try:
        yield
    except OSError as fault:
        is_shut = fault.errno in (errno.EACCES, errno.EPERM, errno.EROFS)
        of_folder = "; bin/install PREFIX needs no folder of this checkout to write to" if is_shut else ""
        say(f"{program} is not built: {fault.filename or 'a file'}: {fault.strerror}{of_folder}")
        sys.exit(FAILED)
    except subprocess.CalledProcessError as fault:
        say(f"{program} is not built: {' '.join(fault.cmd)} ended with {fault.returncode}")
        sys.exit(FAILED)


def see_to(program):
    """Has a program of the sources as they are stand in its out/. Answers the status."""
    with faults_said(program), lock():
        # Another call may have built it meanwhile.
        return 0 if kept.is_built(program) or take(program) else FAILED


def prove(program):
    """Proves and builds a program whatever is kept, and compares. Answers the status."""
    with faults_said(program), lock():
        if not shutil.which("rt"):
            say(f"{program} is not proved: {NO_KIT}")
            return FAILED
        return compare(program) if build(program) else FAILED
