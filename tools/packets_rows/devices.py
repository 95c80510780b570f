"""What packets_cli does by what its input and its outputs are, by docs/PACKETS.md: standard input, terminals, a pipe that
grows, outputs that take nothing more or that nobody reads, and files that aren't there."""

import contextlib
import json
import os
import pty
import re
import struct
import subprocess
import tempfile

import outputs

PLAIN = b"    1   0.000000 10.0.0.1.53 > 10.0.0.2.4000 UDP len 3  bad checksum\n"
COLORED = (
    b"\x1b[2m    1   0.000000\x1b[0m 10.0.0.1.53 > 10.0.0.2.4000 \x1b[36mUDP\x1b[0m len 3  "
    b"\x1b[1;31mbad checksum\x1b[0m\n"
)
FILE = "forms.pcap"
COMPLETIONS = os.path.join(os.path.dirname(os.path.abspath(__file__)), "..", "completions")
# How the lines of conditions begin in the help.
CONDITIONS = ("eth, vlan, macsec, arp, ip4, ip6", "icmp, icmp6, udp, tcp, sctp", "0 to 255", "bad", "refused", "fragments", "cut", "ndp, mld")
CONDITIONS += ("host=ADDRESS", "net=NETWORK", "src=FROM, dst=TO", "port=N", "syn, fin, rst", "vlan=N", "len=N", "frame=N")
# Words for a file, the status, and what is written after the program's name. The cause is in the C library's words.
REFUSED = (
    ((), 3, "standard input: no capture file: the input is empty"),
    (("-",), 3, "standard input: no capture file: the input is empty"),
    (("empty.pcap",), 3, "empty.pcap: no capture file: the input is empty"),
    (("./empty.pcap",), 3, "./empty.pcap: no capture file: the input is empty"),
    (("nothing.pcap",), 1, "nothing.pcap: cannot be opened: No such file or directory (os error 2)"),
    (("forms.pcap/x",), 1, "forms.pcap/x: cannot be opened: Not a directory (os error 20)"),
    ((".",), 4, ".: the input cannot be read: it is a directory"),
)


def version():
    return bytes_of(os.path.join(os.path.dirname(os.path.abspath(__file__)), "..", ".."), "VERSION").decode().strip()


def bytes_of(folder, name):
    with open(os.path.join(folder, name), "rb") as file:
        return file.read()


def run(program, folder, *words, **known):
    known = {"stdin": subprocess.DEVNULL, "capture_output": True} | known
    return subprocess.run([program, *words], cwd=folder, timeout=60, check=False, **known)


def on_terminal(program, folder, words, env=None):
    """What is written on a terminal."""
    master, slave = pty.openpty()
    known = {"stdin": subprocess.DEVNULL, "stdout": slave, "stderr": subprocess.DEVNULL, "env": os.environ | (env or {})}
    child = subprocess.Popen([program, *words], cwd=folder, **known)
    os.close(slave)
    written = outputs.from_terminal(master)
    return child.wait(60), written.replace(b"\r\n", b"\n")


def inputs(program, folder):
    data = bytes_of(folder, FILE)
    for words in (["show"], ["show", "-"]):
        done = run(program, folder, *words, stdin=None, input=data)
        yield "standard input", (done.returncode, done.stdout) == (0, PLAIN)
    for name, status, wanted in REFUSED:
        done = run(program, folder, "show", *name)
        result = done.returncode, done.stdout, done.stderr.decode()
        yield f"refused: {name}", result == (status, b"", f"packets: {wanted}\n")
        named = run(program, folder, *(("-r", *name) if name else ("-n",)))
        result = named.returncode, named.stdout, named.stderr.decode()
        yield f"refused without a command: {name}", result == (status, b"", f"packets: {wanted}\n")
    yield "the version", run(program, folder, "--version").stdout == f"packets {version()}\n".encode()
    done = run(program, folder)
    yield "no words", (done.returncode, done.stdout) == (2, b"") and b"\nUsage: packets [OPTIONS] [FILE]...\n" in done.stderr
    for words in (["--payload", "show"], ["show", "--width"], ["json", "--utc"], ["summary", "--only", "tcq"]):
        done = run(program, folder, *words)
        yield f"no command: {words}", done.returncode == 2 and done.stderr.startswith(b"error: ")
    for words in (["--help"], ["show", "--help"], ["json", "--help"], ["summary", "--help"], ["flows", "--help"]):
        done = run(program, folder, *words)
        usage = "\nUsage: " + " ".join(["packets", *words[:-1]])
        yield f"help: {words}", done.returncode == 0 and usage.encode() in done.stdout
        yield f"conditions: {words}", all(f"\n            {it} ".encode() in done.stdout for it in CONDITIONS)
        yield f"examples: {words}", len(re.findall(rb"(?m)^  .*packets.* ", done.stdout.partition(b"\nExamples:\n")[2])) == 3


# The words for files, the status, what is written on standard output, and on standard error.
SECOND = "nothing.pcap: cannot be opened: No such file or directory (os error 2)"
EMPTY = "empty.pcap: no capture file: the input is empty"
SEVERAL = (
    ((FILE, FILE), 0, 2 * PLAIN, ()),
    ((FILE, "nothing.pcap", FILE), 1, 2 * PLAIN, (SECOND,)),
    (("empty.pcap", "nothing.pcap", FILE), 3, PLAIN, (EMPTY, SECOND)),
    ((FILE, ".", "empty.pcap"), 4, PLAIN, (".: the input cannot be read: it is a directory", EMPTY)),
)
# What a compressed file is, by its first bytes, and what opens it.
COMPRESSED = (("gz", b"\x1f\x8b\x08\0", "zcat"), ("zst", b"\x28\xb5\x2f\xfd", "zstdcat"))
COMPRESSED += (("xz", b"\xfd7zXZ\0", "xzcat"), ("bz2", b"BZh91AY", "bzcat"))


def several(program, folder):
    """Several files, and the counts of all of them."""
    for words in ([], ["show"]):
        for names, status, wanted, noted in SEVERAL:
            done = run(program, folder, *words, *names)
            errors = "".join(f"packets: {it}\n" for it in noted).encode()
            yield f"files: {words} {names}", (done.returncode, done.stdout, done.stderr) == (status, wanted, errors)
    one = run(program, folder, "json", FILE).stdout
    yield "objects of files", run(program, folder, "json", FILE, FILE).stdout == 2 * one
    for names, status in (((FILE, "mixed.pcap"), 0), (("nothing.pcap", "mixed.pcap", FILE), 1), ((FILE, "mixed.pcap", "empty.pcap"), 3)):
        done = run(program, folder, "summary", *names)
        first = done.stdout.decode().split("\n")[1]
        yield f"counts of {names}", (done.returncode, first.split()[0]) == (status, "11")
    found = json.loads(run(program, folder, "flows", "--json", FILE, "nothing.pcap", FILE).stdout)
    yield "a conversation of two files", [it["forward"]["packets"] for it in found["conversations"]] == [2]
    done = run(program, folder, "summary", "empty.pcap", "nothing.pcap")
    yield "no counts", (done.returncode, done.stdout) == (3, b"")


def compressed(program, folder):
    """The words that read a compressed file."""
    for suffix, prefix, opener in COMPRESSED:
        with tempfile.NamedTemporaryFile(suffix=f".{suffix}") as file:
            file.write(prefix)
            file.flush()
            for command in ("show", "json", "summary", "flows"):
                done = run(program, folder, command, file.name)
                words = f"`{opener} {file.name} | packets {command}` reads it"
                wanted = f"packets: {file.name}: no capture file: the input is compressed, {words}\n"
                yield f"a compressed file: {suffix}", (done.returncode, done.stderr.decode()) == (3, wanted)


def terminals(program, folder):
    os.environ.pop("NO_COLOR", None)
    yield "a terminal", on_terminal(program, folder, ["show", FILE]) == (0, COLORED)
    for text in ("1", ""):
        result = on_terminal(program, folder, ["show", FILE], {"NO_COLOR": text})
        yield f"a terminal and NO_COLOR={text}", result == (0, PLAIN)
    result = on_terminal(program, folder, ["show", "--color", "never", FILE])
    yield "a terminal without colors", result == (0, PLAIN)
    with long_capture(folder) as name:
        for words in (["show", name], ["json", name], ["-w", "-", name]):
            shown = outputs.progress(program, words, folder, 1.2)
            yield f"how far a run is: {words[0]}", re.fullmatch(rb"(\r[0-9] of 9 MiB)+\r\x1b\[K", shown) is not None
    yield "no terminal", run(program, folder, "summary", FILE).stderr == b""


@contextlib.contextmanager
def long_capture(folder):
    """A file of 9 MiB."""
    data = bytes_of(folder, "mixed.pcap")
    with tempfile.NamedTemporaryFile() as file:
        file.write(data + 15_000 * data[24:])
        file.flush()
        yield file.name


def takers(program, folder):
    """Outputs that are full, that nobody reads, and whose reader ends."""
    shown = (["show", FILE], ["json", FILE], ["summary", FILE], ["flows", FILE])
    wanted = 4, b"packets: the output cannot be written\n"
    for words in (*shown, ["--help"], ["--version"]):
        yield f"a full output: {words}", outputs.on_full_device(program, words, folder) == wanted
    for words in (*shown, ["show", "--skip", "no_frame.pcap"], ["--help"]):
        yield f"a closed output: {words}", outputs.on_closed_pipe(program, words, folder) == outputs.SILENCE
    with long_capture(folder) as name:
        for words in (["show", name], ["json", name]):
            yield f"before head: {words[0]}", outputs.before_head(program, words, folder) == outputs.SILENCE


def growing(program, folder):
    """Of a capture that grows, the line of a packet is there before the next one comes."""
    data = bytes_of(folder, FILE)
    child = subprocess.Popen([program, "show"], stdin=subprocess.PIPE, stdout=subprocess.PIPE)
    lines = []
    for chunk in (data, data[24:]):
        child.stdin.write(chunk)
        child.stdin.flush()
        lines.append(child.stdout.readline())
    child.stdin.close()
    rest = child.stdout.read()
    yield "a capture that grows", (child.wait(60), lines, rest) == (0, [PLAIN, PLAIN.replace(b"1  ", b"2  ", 1)], b"")


def limited(program, folder):
    """A run that came to its limit ends, though its input doesn't."""
    data = bytes_of(folder, FILE)
    seconds = struct.unpack(">I", data[24:28])[0]
    later = struct.pack(">I", seconds + 5) + data[28:]
    counted = b"   packets   share           bytes   share     first  protocol\n         1 100.0 % "
    for words, known in (
        (["show", "--count", "1"], PLAIN),
        (["show", "--duration", "5"], PLAIN),
        (["summary", "--count", "1"], counted),
        (["summary", "--duration", "5"], counted),
    ):
        child = subprocess.Popen([program, *words], stdin=subprocess.PIPE, stdout=subprocess.PIPE)
        child.stdin.write(data + (later if "--duration" in words else b""))
        child.stdin.flush()
        try:
            status = child.wait(60)
        except subprocess.TimeoutExpired:
            status = None
            child.kill()
        written = child.stdout.read()
        child.stdin.close()
        is_known = written == known if words[0] == "show" else written.startswith(known)
        yield f"an input that stays open: {words}", (status, is_known) == (0, True)


def completed(program, folder):
    """Bash completes the options that the help lists, of the program and of each command."""
    with tempfile.TemporaryDirectory() as place:
        named = os.path.join(place, "packets")
        os.symlink(program, named)
        subprocess.run([COMPLETIONS, place, named], check=True)
        source = f"source {place}/bash-completion/completions/packets"
        for words in ([], ["show"], ["json"], ["summary"]):
            shown = run(program, folder, *words, "--help").stdout.decode()
            listed = re.findall(r"(?m)^ +(?:-\w, )?(--[\w-]+)", shown.partition("\nOptions:\n")[2].partition("\nExamples:\n")[0])
            typed = ["packets", *words, "--"]
            command = f"{source}; COMP_WORDS=({' '.join(typed)}) COMP_CWORD={len(typed) - 1}; _packets packets --"
            done = run("bash", folder, "-c", command + "; printf '%s\\n' \"${COMPREPLY[@]}\"")
            yield f"completed: {words}", len(listed) > 8 and sorted(done.stdout.decode().split()) == sorted(listed)


def checked(program, folder):
    """The name of each check, and whether all was well."""
    for checks in (inputs, several, compressed, terminals, takers, growing, limited, completed):
        yield from checks(program, folder)
