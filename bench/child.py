"""The program as a child: batches of lines and single lines, with the processor's time that each took."""

import fcntl
import os
import re
import subprocess
import threading
import time

# A line that is always refused, from a session that holds nothing: it marks the end of a batch.
MARK = b"9999 CLOSE 9\n"
MARK_REPLY = b"9999 NO 20\n"
SET_PIPE_SIZE = 1031
PIPE_SIZE = 1 << 20
# Linux counts a stretch of another process's work once it ends, just behind the reply: so long is waited before the clock is read.
SETTLES = 0.003


class Refused(Exception):
    """A line was refused, or its reply isn't what was wanted: what was timed isn't what was meant."""


class Child:
    """The program over a folder. `opening` has what it took until the schema line was answered: processor and wall seconds."""

    def __init__(self, program, folder, schema):
        begun = time.perf_counter()
        self.process = subprocess.Popen(
            [program, "run", folder], stdin=subprocess.PIPE, stdout=subprocess.PIPE, bufsize=0
        )
        self.inp, self.out = self.process.stdin.fileno(), self.process.stdout.fileno()
        for pipe in (self.inp, self.out):
            fcntl.fcntl(pipe, SET_PIPE_SIZE, PIPE_SIZE)
        # Linux: the clock of the processor's time of all threads of another process.
        self.clock = (~self.process.pid << 3) | 2
        self.token = int(self.ask(schema).split(" ")[1])
        wall = time.perf_counter() - begun
        self.opening = self.cpu_at_rest(), wall

    def cpu(self):
        """The processor's time that the program has used, user and system, in seconds."""
        return time.clock_gettime(self.clock)

    def cpu_at_rest(self):
        """As `cpu`, once the program has come to rest behind its last reply."""
        time.sleep(SETTLES)
        return self.cpu()

    def memory(self):
        """The greatest resident memory so far, and that of now, in megabytes of 2^20 bytes."""
        with open(f"/proc/{self.process.pid}/status") as status:
            text = status.read()
        return tuple(int(re.search(rf"{key}:\s+(\d+)", text).group(1)) / 1024 for key in ("VmHWM", "VmRSS"))

    def ask(self, line):
        """The reply to a line whose reply is one line."""
        os.write(self.inp, line.encode() + b"\n")
        reply = b""
        while not reply.endswith(b"\n"):
            data = os.read(self.out, 1 << 16)
            if not data:
                raise Refused(f"the program ended at '{line}'")
            reply += data
        text = reply.decode().rstrip("\n")
        if " NO " in f" {text}"[:9]:
            raise Refused(f"'{line}' was answered '{text}'")
        return text

    def timed(self, line, least=0.0):
        """As `ask`; and the processor's time that it took, and the wall's. A line that takes less than `least` isn't waited
        for, so what it took may be counted with the next one."""
        cpu, begun = self.cpu(), time.perf_counter()
        reply = self.ask(line)
        wall = time.perf_counter() - begun
        return reply, (self.cpu_at_rest() if wall >= least else self.cpu()) - cpu, wall

    def batch(self, lines):
        """Sends all lines at once; the replies, and the processor's time that they took. None may be refused."""
        data = "".join(line + "\n" for line in lines).encode() + MARK
        cpu = self.cpu()
        writer = threading.Thread(target=self.write, args=(data,))
        writer.start()
        replies = self.read_to_mark()
        cpu = self.cpu_at_rest() - cpu
        writer.join()
        for reply in replies:
            if " NO " in reply[:9]:
                raise Refused(f"'{reply}' in a batch that begins with '{lines[0]}'")
        return replies, cpu

    def write(self, data):
        view = memoryview(data)
        while view:
            view = view[os.write(self.inp, view) :]

    def read_to_mark(self):
        chunks, tail = [], b"\n"
        while not tail.endswith(b"\n" + MARK_REPLY):
            data = os.read(self.out, PIPE_SIZE)
            if not data:
                raise Refused("the program ended in the middle of a batch")
            chunks.append(data)
            tail = (tail + data)[-len(MARK_REPLY) - 1 :]
        return b"".join(chunks)[: -len(MARK_REPLY)].decode().splitlines()

    def end(self):
        self.process.stdin.close()
        status = self.process.wait(600)
        self.process.stdout.close()
        if status != 0:
            raise Refused(f"the program ended with status {status}")
