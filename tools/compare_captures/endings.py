"""How captures_cli ends, by docs/CAPTURES.md: with inputs that it refuses or that aren't there, outputs that are full or closed, and how far it is."""

import os
import re
import subprocess

import outputs

HERE = os.path.dirname(os.path.abspath(__file__))
# The bytes of a frame, which aren't looked at.
LINE = f"frame 0 {'0a' * 64}\n".encode()
# Words, standard input, the status, and what is printed after the program's name. The cause is in the C library's words.
REFUSED = (
    (("lines",), b"", 3, "standard input: no capture file: the input is empty"),
    (("lines", "-"), b"", 3, "standard input: no capture file: the input is empty"),
    (("capture",), b"wait\n", 3, "standard input: line 1 has no frame"),
    (("capture", "two.lines"), b"", 3, "two.lines: line 2 has no frame"),
    (("lines", "nothing.pcap"), b"", 1, "nothing.pcap: cannot be opened: No such file or directory (os error 2)"),
    (("capture", "."), b"", 4, ".: the input cannot be read: it is a directory"),
)


def version():
    with open(os.path.join(HERE, "..", "..", "VERSION"), encoding="ascii") as file:
        return file.read().strip()


def run(program, words, folder, text=b""):
    return subprocess.run([program, *words], cwd=folder, input=text, capture_output=True, timeout=60, check=False)


def checked(program, folder):
    """The name of each check, and whether all was well."""
    with open(os.path.join(folder, "two.lines"), "wb") as file:
        file.write(LINE + b"wait\n")
    with open(os.path.join(folder, "many.lines"), "wb") as file:
        file.write(2000 * LINE)
    with open(os.path.join(folder, "many.pcap"), "wb") as file:
        file.write(run(program, ["capture", "many.lines"], folder).stdout)
    for words, text, status, wanted in REFUSED:
        done = run(program, words, folder, text)
        yield f"refused: {words}", (done.returncode, done.stderr) == (status, f"captures: {wanted}\n".encode())
    yield "the version", run(program, ["--version"], folder).stdout == f"captures {version()}\n".encode()
    for words in (["--help"], ["lines", "--help"], ["capture", "--help"]):
        usage = "\nUsage: " + " ".join(["captures", *words[:-1]])
        shown = run(program, words, folder).stdout
        yield f"help: {words}", usage.encode() in shown
        yield f"examples: {words}", len(re.findall(rb"(?m)^  .*captures.* ", shown.partition(b"\nExamples:\n")[2])) == 3
    written = (["lines", "many.pcap"], ["capture", "many.lines"])
    for words in (*written, ["--help"]):
        wanted = 4, b"captures: the output cannot be written\n"
        yield f"a full output: {words}", outputs.on_full_device(program, words, folder) == wanted
        yield f"a closed output: {words}", outputs.on_closed_pipe(program, words, folder) == outputs.SILENCE
    yield "before head", outputs.before_head(program, written[0], folder) == outputs.SILENCE
    with open(os.path.join(folder, "long.lines"), "wb") as file:
        file.write(30000 * LINE)
    shown = outputs.progress(program, ["capture", "long.lines"], folder, 1.2)
    yield "how far a run is", re.fullmatch(rb"(\r[0-3] of 3 MiB)+\r\x1b\[K", shown) is not None
