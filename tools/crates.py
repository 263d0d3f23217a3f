"""The crates of the repository as crates.txt has them, and the words with which the compiler of the Rattle kit is called for them."""
import functools
import hashlib
import os

ROOT = os.path.dirname(os.path.dirname(os.path.abspath(__file__)))
# A crate's code and what is promised of it, which a program is compiled from; and all that a proof reads.
CODE = "src", "specs"
PARTS = *CODE, "proofs"


def said_by_rt(word):
    # Slow to load, and nothing else here needs it: bin/build asks at each call whether a program is there.
    import subprocess

    return subprocess.run(["rt", word], stdout=subprocess.PIPE, text=True, check=True).stdout


@functools.cache
def kit():
    """The folder of the Rattle kit, that of its first page."""
    return os.path.dirname(said_by_rt("doc").strip())


@functools.cache
def version_of_kit():
    return said_by_rt("version")


@functools.cache
def lines_of_crates():
    """Each crate and the libraries that it names, the kit's among them."""
    with open(f"{ROOT}/crates.txt", encoding="utf-8") as lines:
        return {name: used.split() for name, _, used in (it.partition(":") for it in lines if ":" in it and not it.startswith("#"))}


def used(crate):
    """The crates of the repository that a crate names."""
    crates = lines_of_crates()
    return [it for it in crates[crate] if it in crates]


def below(crate):
    """The crates that a crate stands on, lowest first, with itself."""
    found = []

    def enter(each):
        for it in used(each):
            if it not in found:
                enter(it)
        found.append(each)

    enter(crate)
    return found


def is_of_an_editor(name):
    """Whether a file is what editors leave beside the one that they edit: .lib.rt.swp, .#lib.rt, #lib.rt#, lib.rt~. No module is called so."""
    return name.startswith((".", "#")) or name.endswith("~")


def files(crate, parts=PARTS):
    """The paths of a crate's files, in order."""
    walked = [it for part in parts for it in os.walk(f"{ROOT}/crates/{crate}/{part}")]
    return sorted(os.path.join(folder, name) for folder, _, names in walked for name in names if not is_of_an_editor(name))


@functools.cache
def sum_of(crate):
    """A sum of all that a crate's proof reads: the kit, the crate's line and files, and those of the crates that it stands on."""
    found = hashlib.sha256(repr([version_of_kit(), crate, lines_of_crates()[crate], [sum_of(it) for it in used(crate)]]).encode())
    for path in files(crate):
        with open(path, "rb") as file:
            found.update(repr([os.path.relpath(path, ROOT), hashlib.sha256(file.read()).hexdigest()]).encode())
    return found.hexdigest()


def sum_of_code(program, kit_lines):
    """A sum of all that a program is compiled from, as it is now: the lines of a kit's version, and the lines, code and definitions of the
    crates that it stands on, with its own. Proofs are left out: they change no byte of it, and nothing that is promised of it."""
    found = hashlib.sha256(repr(list(kit_lines)).encode())
    for crate in below(program):
        found.update(repr([crate, lines_of_crates()[crate]]).encode())
        for path in files(crate, CODE):
            with open(path, "rb") as file:
                found.update(repr([path[len(ROOT) + 1:], hashlib.sha256(file.read()).hexdigest()]).encode())
    return found.hexdigest()


def touched(crate, parts=CODE):
    """When a file or a folder of a crate and those that it stands on was last touched, by the clock of the file system, which no tool sets
    back."""
    paths = [f"{ROOT}/crates.txt"]
    for each in below(crate):
        paths += files(each, parts)
        paths += [folder for part in parts for folder, _, _ in os.walk(f"{ROOT}/crates/{each}/{part}")]
    return max(os.stat(it).st_ctime for it in paths)


def is_program(crate):
    return os.path.exists(f"{ROOT}/crates/{crate}/src/main.rt")


def statements(crate):
    """Where what a library states is kept, and its code: its proofs are made and not kept. rt takes no .rt file elsewhere in out/, reads
    nothing there, and removes it when it builds the library itself."""
    return f"{ROOT}/crates/{crate}/out/rlib/statements"


def words(command, crate):
    """A call of the compiler that checks or builds a crate over what the libraries below it state, in the crate's folder."""
    of_kit = f"{kit()}/rlibs"
    root = "main.rt" if is_program(crate) else "lib.rt"
    found = [f"{kit()}/bin/rattle", command, "--crate-name", crate, f"src/{root}", "--extern", f"std={of_kit}/std.rlib"]
    for it in lines_of_crates()[crate]:
        found += ["--extern", f"{it}={statements(it) if it in used(crate) else of_kit}/{it}.rlib"]
    for folder in [of_kit, *(statements(it) for it in below(crate)[:-1])]:
        found += ["-L", f"dependency={folder}"]
    found += ["--antt-project", f"{kit()}/rattle/logic/antt-project.json", "--logic-built", f"{kit()}/logic_built"]
    return [*found, "--links", f"{crate}="]
