"""Clients of a server over TCP that send slowly, stop halfway, stay, reset or read nothing."""
import os
import re
import socket
import struct
import subprocess
import time

import replies
import requests
from draws import PODS, request
from replies import Amiss, same

WAIT = 20
CONNECTIONS = 100
# how many bytes a server's system takes at least of a client whose watch goes on: behind more of them only a reset is seen
TAKEN_UNREAD = 65_536
# how a client goes on once it sent what it sends
WAYS = ["whole"] * 4 + ["slow"] * 2 + ["stays", "stops", "resets", "reads nothing"]


class NoLog:
    """A log that others write too, of which nothing is foretold."""

    def follow(self, request, reply):
        pass


class Server:
    """A server that is started anew after so many connections, each time with its end compared."""

    def __init__(self, program):
        self.program, self.running = program, None

    def start(self):
        self.running = subprocess.Popen([self.program, "serve", "--port", "0", "--connections", str(CONNECTIONS), "--workers", "2"],
                                        stdout=subprocess.PIPE, stderr=subprocess.PIPE, text=True)
        found = re.search(r"listening on http://127\.0\.0\.1:(\d+)", self.running.stderr.readline())
        self.port, self.left = int(found[1]), CONNECTIONS
        self.begun = self.held()

    def held(self):
        return len(os.listdir(f"/proc/{self.running.pid}/fd"))

    def visit(self, draw, data):
        """A client that sends these bytes. Answers what it read."""
        if not self.running:
            self.start()
        self.left -= 1
        output = Visit(self.port, draw.choice(WAYS), draw).make(data)
        if self.left == 1:
            self.finish()
        return output

    def finish(self):
        """The last connection is a list, which is answered; then the server ends."""
        until = time.monotonic() + 5
        while self.held() > self.begun + 8:
            if time.monotonic() > until:
                raise Amiss(f"{self.held()} descriptors after all clients left, where {self.begun} were there before them")
            time.sleep(0.02)
        output = Visit(self.port, "whole", None).make(request("GET", PODS))
        same("a list after them", [it.code for it in output.replies], [200])
        out, err = self.running.communicate(timeout=WAIT)
        same("a server's end", (self.running.returncode, out, err), (0, f"sessions {CONNECTIONS}\n", ""))
        self.running = None

    def end(self):
        if self.running:
            while self.left > 1:
                Visit(self.port, "whole", None).make(request("GET", PODS))
                self.left -= 1
            self.finish()


class Visit:
    """One client."""

    def __init__(self, port, way, draw):
        self.one = socket.create_connection(("127.0.0.1", port), WAIT)
        self.way, self.draw, self.out, self.is_reset = way, draw, b"", False

    def make(self, data):
        with self.one:
            if self.way == "slow":
                self.send_slowly(data)
            elif self.way in ("stops", "resets"):
                self.send(data[:self.draw.randrange(len(data) + 1)])
            else:
                self.send(data)
            if self.way in ("resets", "reads nothing"):
                self.one.setsockopt(socket.SOL_SOCKET, socket.SO_LINGER, struct.pack("ii", self.way == "resets", 0))
                return replies.Output()
            if self.way in ("stops", "stays"):
                self.one.settimeout(0.03)
                self.read()
                return replies.read(self.out, may_break=True)
            return self.end(data)

    def end(self, data):
        """Reads to the end behind all that was sent: a reply to each request, where the connection wasn't reset."""
        try:
            self.one.shutdown(socket.SHUT_WR)
        except OSError:
            self.is_reset = True
        is_over = self.read()
        output = replies.read(self.out, may_break=True)
        if not is_over:
            if output.lines is not None and len(data) > TAKEN_UNREAD:
                self.one.setsockopt(socket.SOL_SOCKET, socket.SO_LINGER, struct.pack("ii", 1, 0))
                return output
            raise Amiss(f"a connection isn't ended within {WAIT} s")
        if self.is_reset:
            return output
        if output.lines is None:
            same("what is no whole reply", output.rest[:300], b"")
        _, ending = requests.read(data)
        is_refused = output.lines is None and output.replies and output.replies[-1].refuses_bytes()
        output.is_ended = True
        is_closed = output.lines is not None or any(it.closes for it in output.replies)
        requests.judge(data, output, 6 if is_refused else 0 if is_closed else requests.STATUS.get(ending, 0), NoLog())
        return output

    def send(self, data):
        """Sends, and reads what comes meanwhile, so that neither side waits for the other."""
        at = 0
        self.one.setblocking(False)
        until = time.monotonic() + WAIT
        while at < len(data) and not self.is_reset:
            if time.monotonic() > until:
                raise Amiss(f"a server takes nothing for {WAIT} s")
            try:
                at += self.one.send(data[at:at + 65_536])
            except BlockingIOError:
                self.read_some()
                time.sleep(0.001)
            except OSError:
                self.is_reset = True
        self.one.settimeout(WAIT)

    def read_some(self):
        try:
            self.out += self.one.recv(1 << 20)
        except BlockingIOError:
            pass
        except OSError:
            self.is_reset = True

    def send_slowly(self, data):
        for _ in range(8):
            count = self.draw.choice([1, 2, 10])
            self.send(data[:count])
            data = data[count:]
            time.sleep(0.002)
        self.send(data)

    def read(self):
        """Reads to the end of what comes; whether it ended."""
        try:
            while piece := self.one.recv(1 << 20):
                self.out += piece
        except TimeoutError:
            return False
        except OSError:
            self.is_reset = True
        return True
