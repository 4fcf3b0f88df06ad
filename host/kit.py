"""What host/test, host/bench and host/stack share: the proved library, and C by the kit's compiler and linker."""
import hashlib, pathlib, subprocess, sys

ROOT = pathlib.Path(__file__).resolve().parent.parent
sys.path.insert(0, str(ROOT / "tests"))
import shared

HOST = ROOT / "host"
CRATE = ROOT / "crates/gingerstall"
ARCHIVE = CRATE / "out/libgingerstall.a"
MADE_OF = ARCHIVE.with_suffix(".made-of")
TARGET = "x86_64-unknown-linux-gnu"
BUILD = "(cd crates/gingerstall && rt lib)"  # as docs/EMBEDDING.md has it
STRICT = ["-Wall", "-Wextra", "-Werror", "-pedantic"]


def found():
    """The kit's folder, as docs/EMBEDDING.md finds it."""
    try:
        return pathlib.Path(subprocess.run(["rt", "doc"], check=True, stdout=subprocess.PIPE, text=True).stdout.strip()).parent
    except (OSError, subprocess.CalledProcessError) as fault:
        sys.exit(f"host: rt doesn't say where its kit is: {fault}")


KIT = found()
TOOLCHAIN = KIT / "toolchain"


class Failed(Exception):
    """What a compiler or linker said when it failed."""


class Fault(Exception):
    """Why a test fails."""


def content():
    """What the library is made of, and the library itself, as one line."""
    parts = (crate / part for crate in ROOT.glob("crates/*") for part in ("src", "specs", "proofs"))
    files = [path for part in parts for path in part.rglob("*") if path.is_file()]
    whole = hashlib.sha256()
    for path in [KIT / "KIT-ID", ROOT / "crates.txt", *sorted(files), ARCHIVE]:
        whole.update(f"{path}\n".encode() + hashlib.sha256(path.read_bytes()).digest())
    return whole.hexdigest()


def prove():
    """Builds the library, unless it is there and made of just these files."""
    if ARCHIVE.exists() and MADE_OF.exists() and MADE_OF.read_text() == content():
        return
    rt = subprocess.run(["rt", "lib"], cwd=CRATE, stdin=subprocess.DEVNULL, stdout=subprocess.PIPE, text=True)
    if rt.returncode != 0:
        sys.exit(f"{rt.stdout}host: the library isn't built")
    MADE_OF.write_text(content())


def said(command, **more):
    """What a program prints, and its status."""
    done = subprocess.run(command, stdout=subprocess.PIPE, stderr=subprocess.STDOUT, text=True, **more)
    return done.stdout, done.returncode


def done(command, **more):
    """Runs what only speaks where it fails."""
    printed, status = said(command, **more)
    if status != 0:
        raise Failed(f"{pathlib.Path(command[0]).name} failed and said:\n{printed}")


def compiled(room, source, *language):
    """The object file of a C file. The kit has no C headers, so that those of this machine are kept out too."""
    made = room / f"{source.stem}.o"
    clang = [TOOLCHAIN / "bin/clang", f"--target={TARGET}", "-O3", "-fPIC", *(language or ["-std=c11"]), *STRICT]
    headers = ["-nostdinc", "-isystem", HOST / "headers", "-I", ROOT / "include", "-I", HOST]
    done([*clang, *headers, "-c", source, "-o", made])
    return made


def linked(made, *objects):
    """The program of some object files and the library."""
    done([KIT / "bin/rattle-link", "--target", TARGET, "--toolchain", TOOLCHAIN, "-o", made, *objects, ARCHIVE])
    return made


def program(room, *names):
    """The program of some C files of host/, called as the first of them, and the library."""
    return linked(room / names[0], *(compiled(room, HOST / f"{name}.c") for name in names))


def command(program, *words):
    return [str(program), *map(str, words)]
