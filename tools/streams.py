"""What the clerk's tools share: what they are given and what they put out. Whatever is closed, full or gone, a tool ends
with status 1 and at most one line for each fault."""
import os, sys

BLOCK = 1 << 16


class Fault(Exception):
    """Why a tool can't do what it is asked to."""


def shown(text):
    """A text in one line, with all that can't be seen, or could be taken for something else, spelt out."""
    def spelt(character):
        code = ord(character)
        if code == 0xFEFF:
            return "<BOM>"
        if code < 0x80:
            return character if character.isprintable() else character.encode("unicode_escape").decode()
        return f"\\u{code:04x}" if code < 0x10000 else f"\\U{code:08x}"
    return "".join(map(spelt, text))


def is_open(descriptor):
    try:
        os.fstat(descriptor)
    except OSError:
        return False
    return True


def opened(what, name, how):
    """A file, or standard input where none is named, open to be read. How says what to do instead of typing it in."""
    try:
        if name is None and not is_open(0):
            raise Fault(f"{what}: standard input is closed")
        source = open(0 if name is None else name, "rb", buffering=0)
    except OSError as fault:
        raise Fault(f"{what}: {shown('standard input' if name is None else name)}: {fault.strerror}")
    if source.isatty():
        raise Fault(f"{what}: a terminal is no {what}: {how}")
    return source


def all_of(what, descriptor):
    """All that can be read. Python's own files take a pipe that doesn't wait for its writer to be at its end."""
    if not is_open(descriptor):
        raise Fault(f"{what}: standard input is closed")
    blocks = []
    try:
        while block := os.read(descriptor, BLOCK):
            blocks.append(block)
    except OSError as fault:
        raise Fault(f"{what}: {fault.strerror}")
    return b"".join(blocks)


def put(what, data):
    """Writes to standard output, past Python's own buffer: nothing is left over that could fail at the end."""
    try:
        rest = memoryview(data)
        while rest:
            rest = rest[os.write(1, rest):]
    except BrokenPipeError:
        raise
    except OSError as fault:
        raise Fault(f"{what}: {fault.strerror}")


def run(main):
    """Runs a tool to its status. A reader that has seen enough, or a clerk who breaks it off, ends it quietly."""
    try:
        status = main(*sys.argv[1:])
    except Fault as fault:
        status = str(fault)
    except (BrokenPipeError, KeyboardInterrupt):
        status = 1
    sys.exit(status)
