"""Plays runs of the program by its words (*.words)."""
import os
import resource
import shlex
import socket
import subprocess
import time

from worked.server import PATIENCE, free_port
from worked.wire import Unread, bytes_of

# What a client is answered whose connection no door takes.
LOST = "lost"

# The places of files that a program has which listens, and no more: its three, and the socket that listens.
FILES = 4


class Run:
    """A run: what it reads, what it is to write, its status, and what stands around it."""

    def __init__(self, number, words, status=0):
        self.number, self.words, self.status = number, words, status
        self.input, self.wanted, self.says, self.settings, self.clients = b"", b"", False, set(), None

    def title(self):
        return shlex.join(self.words)


def runs_of(path):
    """The runs of a file. docs/ROWS.md has its form."""
    runs, names, named = [], {}, None
    with open(path, encoding="utf-8") as file:
        for number, line in enumerate(file, 1):
            mark, _, rest = line.rstrip("\n").partition(" ")
            if mark == "let":
                named, _, items = rest.partition(" = ")
                names[named] = items
            elif mark == "|" and named:
                names[named] += " " + rest
            elif mark in ("$", "!"):
                named, known = None, {}
                for name, items in names.items():
                    known[name] = bytes_of(known, items)
                runs.append(Run(number, shlex.split(rest), 2 if mark == "!" else 0))
            elif mark and mark != "--":
                put(runs[-1], known, mark, rest)
    return runs


def put(run, names, mark, rest):
    """A line of a run."""
    if mark == "<":
        run.input += bytes_of(names, rest)
    elif mark in ("<|", "<~"):
        run.input += rest.encode() + (b"\n" if mark == "<|" else b"")
    elif mark == ">":
        run.wanted += bytes_of(names, rest)
    elif mark == "|":
        run.wanted += rest.encode() + b"\n"
    elif mark == "STATUS":
        status, _, says = rest.partition(" ")
        run.status, run.says = int(status), says == ".."
    elif mark == "=" and " clients " in rest:
        count, _, talk = rest.partition(" clients ")
        sent, _, answered = talk.partition(" => ")
        run.clients = int(count), bytes_of(names, sent), b"" if answered == LOST else bytes_of(names, answered)
    elif mark == "=":
        run.settings.add(rest)
    else:
        raise Unread(f"there is no line {mark}")


def limit_files():
    resource.setrlimit(resource.RLIMIT_NOFILE, (FILES, FILES))


def answer_to(process, port, data):
    """What a client of the port is answered that sends these bytes and no more; nothing where the program has ended."""
    end = time.monotonic() + PATIENCE
    while True:
        try:
            with socket.create_connection(("127.0.0.1", port), PATIENCE) as link:
                link.sendall(data)
                link.shutdown(socket.SHUT_WR)
                return b"".join(iter(lambda: link.recv(65536), b""))
        except ConnectionRefusedError:
            if process.poll() is not None:
                return b""
            if time.monotonic() > end:
                raise Unread("nothing listens at the port") from None
            time.sleep(0.01)
        except ConnectionError:
            return b""


def played(program, run, port):
    """What a run writes, its status, and how many of its clients were answered otherwise."""
    words = [program, *(str(port) if word == "PORT" else word for word in run.words)]
    source = os.open("/", os.O_RDONLY) if "reads fail" in run.settings else subprocess.PIPE
    sink = os.open("/dev/full", os.O_WRONLY) if "writes fail" in run.settings else subprocess.PIPE
    limit = limit_files if "no files" in run.settings else None
    wrong = 0
    with subprocess.Popen(words, stdin=source, stdout=sink, stderr=subprocess.DEVNULL, preexec_fn=limit) as process:
        try:
            if run.clients:
                count, sent, answered = run.clients
                wrong = sum(answer_to(process, port, sent) != answered for _ in range(count))
            written, _ = process.communicate(run.input if source == subprocess.PIPE else None, PATIENCE)
        except (subprocess.TimeoutExpired, Unread):
            process.kill()
            raise Unread(f"no end within {PATIENCE} seconds") from None
    for file in (source, sink):
        if file != subprocess.PIPE:
            os.close(file)
    return written or b"", process.returncode, wrong


def play(program, run):
    """How the run differs, if it does."""
    port = free_port()
    try:
        if "port taken" in run.settings:
            with socket.create_server(("127.0.0.1", port)):
                written, status, wrong = played(program, run, port)
        else:
            written, status, wrong = played(program, run, port)
    except Unread as fault:
        yield run.number, run.title(), "an end", fault
        return
    if status != run.status:
        yield run.number, run.title(), f"status {run.status}", f"status {status}"
    elif len(written) < 9 if run.says else written != run.wanted:
        yield run.number, run.title(), "a text" if run.says else run.wanted, written
    elif wrong:
        yield run.number, run.title(), "each client answered so", f"{wrong} answered otherwise"
