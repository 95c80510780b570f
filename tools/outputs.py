"""How programs end by who takes their output, for the scripts that compare them: the status, and what is on standard error."""

import os
import pty
import subprocess
import time

SILENCE = (0, b"")


def ended(program, words, folder, stdout):
    done = subprocess.run([program, *words], cwd=folder, stdin=subprocess.DEVNULL, stdout=stdout, stderr=subprocess.PIPE, timeout=60, check=False)
    return done.returncode, done.stderr


def on_full_device(program, words, folder):
    with open("/dev/full", "wb") as full:
        return ended(program, words, folder, full)


def on_closed_pipe(program, words, folder):
    reader, writer = os.pipe()
    os.close(reader)
    try:
        return ended(program, words, folder, writer)
    finally:
        os.close(writer)


def before_head(program, words, folder):
    """The same where `head -n 1` reads the output, which has to be longer than a pipe holds."""
    child = subprocess.Popen([program, *words], cwd=folder, stdin=subprocess.DEVNULL, stdout=subprocess.PIPE, stderr=subprocess.PIPE)
    head = subprocess.run(["head", "-n", "1"], stdin=child.stdout, capture_output=True, timeout=60, check=False)
    child.stdout.close()
    errors = child.stderr.read()
    assert head.stdout.count(b"\n") == 1
    return child.wait(60), errors


def from_terminal(master):
    """What was written on a terminal."""
    written = b""
    try:
        while chunk := os.read(master, 65536):
            written += chunk
    except OSError:
        # The terminal's other end is closed.
        pass
    os.close(master)
    return written


def progress(program, words, folder, seconds):
    """What standard error shows on a terminal where nobody reads the output in the first seconds."""
    master, slave = pty.openpty()
    child = subprocess.Popen([program, *words], cwd=folder, stdin=subprocess.DEVNULL, stdout=subprocess.PIPE, stderr=slave)
    os.close(slave)
    time.sleep(seconds)
    child.stdout.read()
    child.wait(60)
    return from_terminal(master)
