"""The tests of host/test on what a host program meets: the header, the day's programs in C and Rust, and the commands of
docs/EMBEDDING.md. What a machine can't do is left out aloud."""
import os, re, struct, subprocess, textwrap

import kit
from kit import Fault, said

PAGE = kit.ROOT / "docs/EMBEDDING.md"
CRATE = kit.HOST / "rust"
LANGUAGES = {"gcc": ["-std=c99"], "g++": ["-x", "c++", "-std=c++11"]}

STEPS = """
join customer 3 budget 9
join bench 1
join bench 6
open bench 1 customer 3
update customer 3 by 5
sell bench 1 customer 3 count 2
sell bench 1 customer 3 count 4
stock bench 1 with 4
bench 1 authenticates
desk authenticates bench 1
clear bench 1 customer 3
sell bench 1 customer 3 count 1
update customer 3 by 0
sell bench 1 customer 3 count 2
clear bench 1 customer 3
bench 1 authenticates
desk authenticates bench 1
clear bench 1 customer 3
clear what lives bench 1 customer 3
"""
BALANCES = "bench 1: 4\nbench 6: 0\n"
TOLD = "step 6: refused 11\nstep 14: refused 17\nstep 17: refused 15, token 2 is dead\nstep 18: granted, 1 dropped\n" + BALANCES


# ---- what this machine has ----

def works(command):
    """Whether a command is there and ends well."""
    try:
        return said(command)[1] == 0
    except OSError:
        return False


def compiles(room, compiler, *language):
    """Whether the machine has such a compiler, with headers, that makes programs which run here."""
    source, made = room / "nothing.c", room / "nothing"
    source.write_text("#include <stdio.h>\nint main(void) { return 0; }\n")
    return works([compiler, *language, source, "-o", made]) and works([made])


def cargo(room, command, manifest, *words):
    """Cargo's command line; all that it makes goes to the room."""
    paths = ["--manifest-path", manifest, "--target-dir", room / "cargo", "--target", kit.TARGET]
    return ["cargo", command, "--quiet", "--offline", *paths, *words]


def has_cargo(room):
    """Whether cargo makes programs for x86-64 that run here."""
    empty = room / "empty"
    (empty / "src").mkdir(parents=True)
    (empty / "Cargo.toml").write_text('[package]\nname = "nothing"\nversion = "0.1.0"\nedition = "2021"\n')
    (empty / "src/main.rs").write_text("fn main() {}\n")
    return works(cargo(room, "run", empty / "Cargo.toml"))


# ---- the header ----

def is_silent(command):
    printed, status = said(command)
    if (printed, status) != ("", 0):
        raise Fault(f"status {status}: {printed}")


def constants_hold(room):
    """Each constant of the header against the library, as C99 and as C++: by the kit's compiler and by the machine's."""
    source = kit.HOST / "constants.c"
    named, used = (set(re.findall(r"\bGS_\w+", path.read_text())) for path in (kit.ROOT / "include/gingerstall.h", source))
    unused = named - used
    if unused:
        raise Fault(f"host/constants.c doesn't use {', '.join(sorted(unused))}")
    for compiler, language in LANGUAGES.items():
        is_silent(kit.command(kit.linked(room / "constants", kit.compiled(room, source, *language))))
        if not compiles(room, compiler, *language):
            print(f"{compiler} is left out: there is none here that makes programs")
            continue
        made = room / "own.o"
        kit.done([compiler, *language, *kit.STRICT, "-O2", "-I", kit.ROOT / "include", "-c", source, "-o", made])
        kit.done([compiler, made, kit.ARCHIVE, "-o", room / "own"])
        is_silent([room / "own"])


def headers_agree(room):
    """host/headers says what the machine's own headers say: the same numbers, and what C takes as said a second time. Of
    time.h it asks the numbers alone, for no struct may be said twice."""
    if not compiles(room, "gcc"):
        print("host/headers isn't compared: there are no C headers for x86-64 here")
        return
    headers = sorted((kit.HOST / "headers").iterdir())
    text = "".join(path.read_text() for path in headers)
    numbers = re.findall(r"^#define ([A-Z0-9_]+) (\(?-?\d+\)?)$", text, re.M)
    lines = ["#define _GNU_SOURCE", *(f"#include <{path.name}>" for path in headers)]
    lines += [f'_Static_assert({name} == {number}, "{name}");' for name, number in numbers]
    lines += [f'#include "{path}"' for path in headers if path.name != "time.h"]
    (room / "twice.c").write_text("\n".join(lines) + "\n")
    kit.done(["gcc", "-w", "-c", room / "twice.c", "-o", room / "twice.o"])


# ---- the day's programs ----

def expect(what, expected, got):
    if got != expected:
        raise Fault(f"{what}: expected {expected}, got {got}")


def lay(room):
    """Lists, tapes and books that are none."""
    for name, content in {
        "tokens.rec": kit.shared.tape.list_of(["21-32"]), "cut.rec": bytes(5), "tape.rec": kit.shared.tape.tape_of(STEPS),
        "none.rec": b"", "odd.rec": bytes(9), "spoilt.rec": bytes(25488), "short.rec": bytes(25487),
    }.items():
        (room / name).write_bytes(content)


def days(room, command):
    """A day on an empty book, and a second one on what the first has saved; what can't be done leaves the book."""
    lay(room)

    def day(*names):
        return said([*command, *names], cwd=room)

    book = room / "book.rec"
    expect("an empty book", ("", 0), day("book.rec"))
    expect("an empty book's bytes", struct.pack("<6372I", 1, *[0] * 6371), book.read_bytes())
    expect("a day", (TOLD, 0), day("tokens.rec", room / "book.rec", "tape.rec"))
    expect("a day without steps", (BALANCES, 0), day("tokens.rec", "book.rec", "none.rec"))
    expect("what is left beside the book", [], list(room.glob("*.new")))
    saved = book.read_bytes()
    expect("a book over a book", ("book.rec: is there already\n", 2), day("book.rec"))
    expect("a cut tape", ("refused 16\n", 16), day("tokens.rec", "book.rec", "odd.rec"))
    expect("a cut list", ("cut.rec: is cut within a token\n", 2), day("cut.rec", "book.rec", "tape.rec"))
    for spoilt in ("spoilt.rec", "short.rec"):
        before = (room / spoilt).read_bytes()
        expect(spoilt, ("refused 1\n", 1), day("tokens.rec", spoilt, "tape.rec"))
        expect(f"{spoilt} afterwards", before, (room / spoilt).read_bytes())
    (room / "book.rec.new").mkdir()
    printed, status = day("tokens.rec", "book.rec", "tape.rec")
    expect("a book that can't be saved", (True, 2), (printed.startswith("book.rec: can't be saved"), status))
    expect("the book after all this", saved, book.read_bytes())


def day_in_c(room):
    program = kit.linked(room / "embed", kit.compiled(room, kit.HOST / "embed.c"))
    days(room, kit.command(program))


def crash_leaves_a_book(room):
    """The order in which a book is saved, and the old book or the new one after a crash before each call."""
    objects = [kit.compiled(room, kit.HOST / f"{name}.c") for name in ("embed", "crash")]
    command = kit.command(kit.linked(room / "embed", *objects))
    lay(room)
    told = ["fsync file\n", "rename\n", "fsync folder\n"]
    expect("an empty book", ("".join(told), 0), said([*command, "book.rec"], cwd=room))
    old = (room / "book.rec").read_bytes()

    def ran(crash):
        (room / "book.rec").write_bytes(old)
        files = ["tokens.rec", "book.rec", "tape.rec"]
        printed = said([*command, *files], cwd=room, env={**os.environ, "CRASH": str(crash)})
        return printed, (room / "book.rec").read_bytes()

    new = ran(0)[1]
    expect("whether a day changes the book", True, old != new)
    for at, book in enumerate((old, old, new)):
        expect(f"a crash before {told[at]}", (("".join(told[:at]), 9), book), ran(at + 1))


def slip_book(*slips):
    """The bytes of a slip book: customer 3 has bought six tokens, 21 on, and bench 1 holds slips of the first three."""
    book = [0] * 6372
    records = {0: [1, 6], 4: [1, 0, 3, 0, 24, 25, 26], 20: [1, 3, 6, 0, *range(21, 27)], 34: [1], 42: [1]}
    records[49 + 16 + 3] = [1, 0, 3, len(slips) // 2, *slips]
    for record, words in records.items():
        book[36 * record:36 * record + len(words)] = words
    return struct.pack("<6372I", *book)


def slips_are_opened(room):
    """host/slips.c: one index for some books, and what it refuses."""
    lay(room)
    command = kit.command(kit.linked(room / "slips", kit.compiled(room, kit.HOST / "slips.c")))
    for name, content in {
        "two.rec": slip_book(23, 1, 21, 2), "one.rec": slip_book(21, 3), "unlisted.rec": slip_book(7, 3),
        "again.rec": kit.shared.tape.list_of(["21-32"]) + struct.pack("<I", 21),
    }.items():
        (room / name).write_bytes(content)

    def told(*names):
        return said([*command, *names], cwd=room)

    lines = "two.rec: bench 1, customer 3: 23 21 22\n", "one.rec: bench 1, customer 3: 21 22 23\n"
    expect("two books", ("".join(lines), 0), told("tokens.rec", "two.rec", "one.rec"))
    expect("an unsound book", (lines[0] + "refused 1\n", 1), told("tokens.rec", "two.rec", "unlisted.rec", "one.rec"))
    expect("a book too short", ("refused 1\n", 1), told("tokens.rec", "short.rec"))
    expect("a bad list", ("refused 1\n", 1), told("again.rec", "two.rec"))
    expect("a cut list", ("cut.rec: is cut within a token\n", 2), told("cut.rec", "two.rec"))
    expect("no book", ("slips: takes tokens.rec and slip books\n", 2), told("tokens.rec"))


def day_in_rust(room):
    """The crate's tests, those in its comments too, and its example."""
    if not has_cargo(room):
        print(f"host/rust is left out: there is no cargo that makes programs for {kit.TARGET} that run here")
        return
    strict = {**os.environ, "RUSTFLAGS": "-D warnings", "RUSTDOCFLAGS": "-D warnings"}
    manifest = CRATE / "Cargo.toml"
    kit.done(cargo(room, "test", manifest, "--locked"), env=strict)
    kit.done(cargo(room, "doc", manifest, "--locked"), env=strict)
    kit.done(cargo(room, "build", manifest, "--locked", "--example", "day"), env=strict)
    days(room, [room / "cargo" / kit.TARGET / "debug/examples/day"])


# ---- the page ----

# The headings whose commands not every machine can run.
WAYS = {
    "C on x86-64": lambda room: compiles(room, "cc"),
    "Rust on x86-64": has_cargo,
}


def blocks():
    """The page's indented blocks, each with the heading that it stands under."""
    heading = None
    for piece in PAGE.read_text().split("\n\n"):
        if piece.startswith("#"):
            heading = piece.strip("# ")
        elif piece.startswith("    "):
            yield heading, textwrap.dedent(piece).strip()


def follow(room, block):
    """Runs a block's commands, which print its other lines. The library is built: kit.prove has run that command."""
    lines = block.splitlines()
    commands = [line[2:] for line in lines if line.startswith("$ ") and line[2:] != kit.BUILD]
    told = [line for line in lines if not line.startswith("$ ")]
    ran = subprocess.run(["sh", "-e"], input="\n".join(commands), cwd=room, text=True, capture_output=True)
    if (ran.stdout.splitlines(), ran.returncode) != (told, 0):
        raise Fault(f"the page says:\n{block}\nand this came, with status {ran.returncode}:\n{ran.stdout}{ran.stderr}")


def page_can_be_followed(room):
    """The page's commands, in their order, in a folder that has what the project's has."""
    project = room / "project"
    project.mkdir()
    for path in kit.ROOT.iterdir():
        if not path.name.startswith(".") and path.name != "trial":
            (project / path.name).symlink_to(path)
    found = [(heading, block) for heading, block in blocks() if block.startswith("$ ")]
    for heading in WAYS.keys() - {heading for heading, _ in found}:
        raise Fault(f"docs/EMBEDDING.md has no commands under {heading}")
    for at, (heading, block) in enumerate(found):
        probe = room / f"probe{at}"
        probe.mkdir()
        if WAYS.get(heading, lambda _: True)(probe):
            follow(project, block)
        else:
            print(f"docs/EMBEDDING.md, {heading}, is left out: there is no compiler that makes such programs that run here")


def listings_are_files(room):
    """What the page lists is part of a function in host/."""
    texts = [path.read_text() for pattern in ("*.c", "rust/**/*.rs") for path in kit.HOST.glob(pattern)]
    for _, block in blocks():
        listed = any(textwrap.indent(block, "    ") in text for text in texts)
        if not block.startswith("$ ") and not listed:
            raise Fault(f"this is in no function of host/:\n{block}")


TESTS = (
    constants_hold, headers_agree, day_in_c, crash_leaves_a_book, slips_are_opened, day_in_rust, page_can_be_followed,
    listings_are_files,
)
