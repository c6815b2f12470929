"""The built program: a process for one connection, or one that listens on a port of this machine."""
import socket
import struct
import subprocess
import time

from worked.tokens import Tokens, replies_of, spid_of
from worked.wire import Unread, batch, login

# How long a reply may take, in seconds.
PATIENCE = 300


def free_port():
    """A port of this machine that is free. The socket that finds it does not listen: a process that is started meanwhile has it, too."""
    with socket.socket() as free:
        free.setsockopt(socket.SOL_SOCKET, socket.SO_REUSEADDR, 1)
        free.bind(("127.0.0.1", 0))
        return free.getsockname()[1]


def words_of(user):
    """The words that ask for the login of this user, or for none."""
    return ["--bare"] if user is None else ["--user", user[0], "--password", user[1]]


def run_pipe(program, user, data, piece=0, flags=()):
    """What `pipe` writes for these bytes, and its status. With a piece, at most so many of them are written at once."""
    words = [program, "pipe", *words_of(user), *flags]
    with subprocess.Popen(words, stdin=subprocess.PIPE, stdout=subprocess.PIPE, bufsize=0) as run:
        try:
            if piece:
                write_pieces(run.stdin, data, piece)
                data = b""
            written, _ = run.communicate(data, PATIENCE)
        except subprocess.TimeoutExpired:
            run.kill()
            raise Unread(f"no end within {PATIENCE} seconds") from None
    return written, run.returncode


def write_pieces(sink, data, piece):
    try:
        for at in range(0, len(data), piece):
            sink.write(data[at : at + piece])
            time.sleep(0.0002)
    except BrokenPipeError:
        pass


def replies_to(program, texts):
    """The lines of the reply to each of these batches on one bare connection; fewer where it has ended."""
    written, _status = run_pipe(program, None, b"".join(batch(text) for text in texts))
    return [Tokens(payload).lines() for _whole, payload in replies_of(written)]


class Link:
    """A connection to a port."""

    def __init__(self, port, size=4096):
        self.size = size
        self.socket = socket.create_connection(("127.0.0.1", port), PATIENCE)

    def send(self, data):
        self.socket.sendall(data)

    def reply(self, seconds=PATIENCE):
        """The next message, with its bytes and its payload; None where none begins within so many seconds."""
        self.socket.settimeout(seconds)
        try:
            data = self.exactly(1)
        except socket.timeout:
            return None
        self.socket.settimeout(PATIENCE)
        is_last, at = False, 0
        while not is_last:
            data += self.exactly(at + 8 - len(data))
            is_last, length = bool(data[at + 1] & 1), struct.unpack(">H", data[at + 2 : at + 4])[0]
            data += self.exactly(length - 8)
            at = len(data)
        return replies_of(data, self.size)[0]

    def exactly(self, count):
        data = b""
        while len(data) < count:
            more = self.socket.recv(count - len(data))
            if not more:
                raise Unread("the server has closed the connection")
            data += more
        return data

    def log_in(self, user):
        self.send(login(*user))
        return spid_of(self.reply()[0])

    def rest(self):
        """What comes until the server closes, when nothing more is sent."""
        self.socket.shutdown(socket.SHUT_WR)
        return b"".join(iter(lambda: self.socket.recv(65536), b""))

    def close(self):
        self.socket.close()


class Listening:
    """A program that listens on a port that was free, with an empty database, until the block ends."""

    def __init__(self, program, user, workers, flags=()):
        self.words, self.user, self.workers, self.links = [program, "listen", *flags], user, workers, []

    def __enter__(self):
        self.port = free_port()
        user, password = self.user
        words = ["--port", str(self.port), "--workers", str(self.workers), "--user", user, "--password", password]
        self.run = subprocess.Popen([*self.words, *words], stdin=subprocess.DEVNULL, stdout=subprocess.DEVNULL)
        return self

    def __exit__(self, *_fault):
        for link in self.links:
            link.close()
        self.run.kill()
        self.run.wait()

    def link(self, size=4096):
        """A new connection, as soon as the program takes any."""
        end = time.monotonic() + PATIENCE
        while True:
            try:
                self.links.append(Link(self.port, size))
                return self.links[-1]
            except ConnectionRefusedError:
                if time.monotonic() > end or self.run.poll() is not None:
                    raise Unread("nothing listens at the port") from None
                time.sleep(0.005)

    def members(self, size=4096):
        """A connection for each worker, logged in, by the SPID of its replies: none ends before each has its worker."""
        links = [self.link(size) for _ in range(self.workers)]
        return {link.log_in(self.user): link for link in links}
