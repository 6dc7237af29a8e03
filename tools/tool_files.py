"""How the tools end and write: one line for what is wrong, and files that are whole or as they were.

    run(main, doc)        runs main(words) of a tool; --help prints doc; a fault is one line and status 2
    replacing(path, ..)   a file to write that takes its place once it is whole; an input as output is refused
    Refused               what a tool raises with the text of its line
"""
from __future__ import annotations

import contextlib
import io
import os
import re
import shutil
import stat
import subprocess
import sys
from typing import Callable, Iterable, Iterator, List, Optional, Sequence

HERE = os.path.dirname(os.path.realpath(__file__))


class Refused(Exception):
    """Why a tool can't do what it is asked: one line, which names the file and the line or byte where there are such."""


def tool_name() -> str:
    return os.path.basename(sys.argv[0])


def usage(doc: str) -> str:
    """The tool's text; where it runs under its installed name, with those names in place of tools/NAME."""
    text = doc.strip()
    return re.sub(r"\btools/([a-z]+)\b", r"nettletide-\1", text) if tool_name().startswith("nettletide-") else text


def fault_text(fault: BaseException) -> str:
    """The line that says what a fault is about."""
    if isinstance(fault, OSError) and fault.strerror:
        return f"{fault.filename}: {fault.strerror}" if fault.filename is not None else fault.strerror
    if isinstance(fault, MemoryError):
        return "memory runs out"
    return str(fault) or type(fault).__name__


def run(main: Callable[[List[str]], Optional[int]], doc: str, refused: int = 2) -> None:
    """Runs a tool and ends. A fault is one line on standard error, and the status is `refused`."""
    words = sys.argv[1:]
    try:
        if words[:1] in (["--help"], ["-h"]):
            print(usage(doc))
            status = 0
        else:
            status = main(words) or 0
        sys.stdout.flush()
    except BrokenPipeError:
        os.dup2(os.open(os.devnull, os.O_WRONLY), sys.stdout.fileno())
        status = 0
    except KeyboardInterrupt:
        status = 130
    except (Refused, OSError, ValueError, MemoryError, RecursionError) as fault:
        line = " ".join(fault_text(fault).split("\n"))
        print(f"{tool_name()}: {line}", file=sys.stderr)
        status = refused
    sys.exit(status)


def wrong_words(doc: str) -> Refused:
    """For words that aren't those of the usage: the line of the text that begins with `usage: `."""
    lines = [line.strip() for line in usage(doc).splitlines() if "usage: " in line]
    return Refused(f"wrong words; {lines[0] if lines else 'usage: ' + tool_name()} (--help says more)")


def is_same_file(a: str, b: str) -> bool:
    """Whether two names are one real file."""
    try:
        return os.path.samefile(a, b)
    except OSError:
        return False


def check_output(path: str, inputs: Iterable[str]) -> None:
    """Refuses an output that is one of the inputs, by whatever name."""
    for name in inputs:
        if is_same_file(path, name):
            raise Refused(f"{path}: is the input {name}, which would be lost")


def is_plain(path: str) -> bool:
    """Whether a name is that of a regular file or of none yet."""
    try:
        return stat.S_ISREG(os.stat(path).st_mode)
    except FileNotFoundError:
        return True


def make_part(target: str, ending: str = "") -> str:
    """Makes the file that is to become `target`, and gives its name. Where `target` is there it must be one that may be written."""
    if os.path.exists(target):
        open(target, "r+b").close()
    for number in range(1000):
        part = f"{target[:len(target) - len(ending)]}.nettletide-part{number}{ending}"
        try:
            open(part, "xb").close()
            return part
        except FileExistsError:
            pass  # another run may be writing it
    raise Refused(f"{target}: a thousand files like {part} are beside it: remove those that no run writes")


def put_in_place(part: str, target: str) -> None:
    """Puts a whole file in its place, with the permissions of the one that was there."""
    with open(part, "rb") as file:
        os.fsync(file.fileno())
    if os.path.exists(target):
        shutil.copymode(target, part)
    os.replace(part, target)


@contextlib.contextmanager
def replacing_name(path: str, inputs: Iterable[str] = (), ending: str = "") -> Iterator[str]:
    """The name of a file to write, which is beside `path` and takes its place at the end; after a fault `path` is as it was.

    A link is followed, the permissions of a file that was there are kept, and what is no regular file (a device, a pipe)
    is written straight. A path that is one of the inputs is refused. The name ends as asked, where `path` does.
    """
    check_output(path, inputs)
    if not is_plain(path):
        yield path
        return
    target = os.path.realpath(path)
    try:
        part = make_part(target, ending)
    except OSError as fault:
        fault.filename = path
        raise
    try:
        yield part
        put_in_place(part, target)
    finally:
        if os.path.exists(part):
            os.remove(part)


@contextlib.contextmanager
def replacing(path: str, inputs: Iterable[str] = (), is_text: bool = False) -> Iterator[io.IOBase]:
    """The same, as an open file."""
    with replacing_name(path, inputs) as name:
        try:
            with open(name, "w" if is_text else "wb", encoding="utf-8" if is_text else None) as file:
                yield file
        except OSError as fault:
            if fault.filename in (None, name):
                fault.filename = path  # a full disk, say
            raise


def read_bytes(path: str) -> bytes:
    """All bytes of a file, which isn't empty."""
    with open(path, "rb") as file:
        data = file.read()
    if not data:
        raise Refused(f"{path}: is empty")
    return data


def read_lines(path: str) -> List[str]:
    """The lines of a text, which isn't empty; - is standard input."""
    if path == "-":
        return sys.stdin.read().split("\n")
    try:
        text = read_bytes(path).decode("utf-8")
    except UnicodeDecodeError as fault:
        raise Refused(f"{path}: byte {fault.start}: is no text") from None
    return text.split("\n")


def check_input(path: str) -> None:
    """Refuses a file that isn't there, can't be read or is empty."""
    with open(path, "rb") as file:
        if not file.read(1):
            raise Refused(f"{path}: is empty")


def klayout(script: str, words: Sequence[str], has_window: bool = False, **values: str) -> str:
    """Runs a script beside the tools in KLayout with values for its names, and gives what it printed."""
    if not shutil.which("klayout"):
        raise Refused("KLayout is not installed")
    given = [word for name, value in values.items() for word in ("-rd", f"{name}={value}")]
    environment = dict(os.environ) if has_window else {**os.environ, "QT_QPA_PLATFORM": "offscreen"}
    ended = subprocess.run(["klayout", *words[:-1], *given, words[-1], os.path.join(HERE, script)], env=environment,
                           stdout=None if has_window else subprocess.PIPE, stderr=None if has_window else subprocess.PIPE)
    said = (ended.stdout or b"").decode(errors="replace")
    if ended.returncode != 0:
        lines = [line for line in (said + (ended.stderr or b"").decode(errors="replace")).splitlines() if line.strip()]
        errors = [line for line in lines if "error" in line.lower()]
        raise Refused(f"KLayout ended with status {ended.returncode}: {(errors or lines or ['it said nothing'])[-1].strip()}")
    return said


def program() -> str:
    """The program nettletide: what the environment names as NETTLETIDE, else the one beside the tools, else that on PATH."""
    named = os.environ.get("NETTLETIDE")
    if named:
        found = shutil.which(os.path.abspath(named))
        if not found:
            raise Refused(f"{named}: is no program, and the environment names it as NETTLETIDE")
        return found
    beside = [os.path.join(HERE, "..", "build", "nettletide"), os.path.join(HERE, "..", "..", "bin", "nettletide")]
    for path in [*beside, shutil.which("nettletide") or ""]:
        if path and os.path.isfile(path) and os.access(path, os.X_OK):
            return os.path.abspath(path)
    raise Refused("no program nettletide beside the tools or on PATH: make it, or name it in the environment as NETTLETIDE")
