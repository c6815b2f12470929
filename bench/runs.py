"""What the benches share: batches as packets, and the program that `./tsqld` runs, or the one that TSQLD_PROGRAM names."""
import os
import struct
import subprocess
import sys

TOP = os.path.dirname(os.path.dirname(os.path.abspath(__file__)))
HEADERS = bytes.fromhex("16000000120000000200000000000000000001000000")
# The longest text of a batch, in units: a message has at most 1 MiB of data.
MOST_UNITS = (1_048_576 - len(HEADERS)) // 2
LONGEST_PACKET = 32_767
ERROR, DONE, FAILED = 0xAA, 0xFD, 2


def program():
    """The path of the program, which is built first where there is none."""
    named = os.environ.get("TSQLD_PROGRAM")
    if named:
        return named
    run = subprocess.run([os.path.join(TOP, "tsqld"), "--which"], stdout=subprocess.PIPE, text=True, check=True)
    return run.stdout.strip()


def batch(text, size=LONGEST_PACKET):
    """A batch of this text, in packets of at most so many bytes."""
    data = HEADERS + text.encode("utf-16-le")
    most, packets = size - 8, []
    for at in range(0, len(data), most):
        part = data[at : at + most]
        packets += [struct.pack(">BBHHBB", 1, at + most >= len(data), len(part) + 8, 0, 1, 0), part]
    return b"".join(packets)


def processor_seconds(usage):
    return usage.ru_utime + usage.ru_stime


class Pipe:
    """A run of `pipe --bare`, which is sent batches one by one."""

    def __init__(self, before_start=None):
        words = [program(), "pipe", "--bare"]
        self.child = subprocess.Popen(words, stdin=subprocess.PIPE, stdout=subprocess.PIPE, preexec_fn=before_start)

    def seconds(self):
        """The processor time that its one thread has taken."""
        with open(f"/proc/{self.child.pid}/schedstat") as file:
            return int(file.read().split()[0]) / 1e9

    def answer(self, message):
        """Sends a message, and gives the data of the reply and the processor time that it took."""
        start = self.seconds()
        self.child.stdin.write(message)
        self.child.stdin.flush()
        data, is_last = [], False
        while not is_last:
            head = self.child.stdout.read(8)
            if len(head) < 8:
                sys.exit(f"the program ended with status {self.child.wait()}")
            is_last = head[1] & 1
            data.append(self.child.stdout.read(struct.unpack(">H", head[2:4])[0] - 8))
        return b"".join(data), self.seconds() - start

    def run(self, text, repeat=1):
        """The least processor time of a text that must not fail, of so many times."""
        taken = []
        for _ in range(repeat):
            data, seconds = self.answer(batch(text))
            if error_of(data) is not None:
                sys.exit(f"error {error_of(data)}: {text[:80]}")
            taken.append(seconds)
        return min(taken)

    def close(self):
        """Ends it, and gives the peak of its memory in MiB."""
        self.child.stdin.close()
        self.child.stdout.close()
        _, status, usage = os.wait4(self.child.pid, 0)
        self.child.returncode = os.waitstatus_to_exitcode(status)
        if self.child.returncode != 0:
            sys.exit(f"status {self.child.returncode}")
        return usage.ru_maxrss / 1024


def error_of(data):
    """The number of the error that a reply begins with, 0 where its last statement failed behind other tokens, else None."""
    if data[0] == ERROR:
        return struct.unpack("<I", data[3:7])[0]
    return 0 if data[-13] == DONE and data[-12] & FAILED else None
