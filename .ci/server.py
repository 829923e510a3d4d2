"""The built program as a server, and what a client says to its doors."""
import os
import shutil
import socket
import subprocess
import sys
import tempfile
import time

KEY = "Authorization: Bearer k-local-0001"


def free_ports():
    """Two ports at which nothing listens."""
    with socket.socket() as one, socket.socket() as other:
        one.bind(("127.0.0.1", 0))
        other.bind(("127.0.0.1", 0))
        return one.getsockname()[1], other.getsockname()[1]


def connect(port):
    """A connection, once the door is open."""
    for _ in range(2000):
        try:
            link = socket.create_connection(("127.0.0.1", port), timeout=20)
            link.setsockopt(socket.IPPROTO_TCP, socket.TCP_NODELAY, 1)
            return link
        except ConnectionRefusedError:
            time.sleep(0.005)
    sys.exit(f"nothing listens at port {port}")


class Server:
    """A program that serves both doors of an empty register under a policy, in a folder of its own, until it is left."""

    def __init__(self, program, policy, workers=2):
        self.http, self.line = free_ports()
        self.words = [program, "serve", str(self.http), str(self.line), str(workers)]
        self.policy = policy

    def __enter__(self):
        self.folder = tempfile.TemporaryDirectory()
        shutil.copy(self.policy, os.path.join(self.folder.name, "policy.toml"))
        streams = {"stdin": subprocess.DEVNULL, "stdout": subprocess.PIPE, "stderr": subprocess.PIPE}
        self.process = subprocess.Popen(self.words, cwd=self.folder.name, **streams)
        return self

    def __exit__(self, *fault):
        self.process.terminate()
        self.written = self.process.communicate()[0]
        self.folder.cleanup()


def submit(line):
    return f"POST /desk HTTP/1.1\r\nHost: r\r\n{KEY}\r\nContent-Length: {len(line)}\r\n\r\n{line}"


def look(path):
    return f"GET {path} HTTP/1.1\r\nHost: r\r\n\r\n"


class Client:
    """A connection over HTTP. Of the last reply it knows how many entries the register had."""

    def __init__(self, port):
        self.link = connect(port)
        self.replies = self.link.makefile("rb")
        self.entries = None

    def __enter__(self):
        return self

    def __exit__(self, *fault):
        self.replies.close()
        self.link.close()

    def ask(self, message):
        """The status and the body of the reply."""
        self.link.sendall(message.encode())
        status, length, self.entries = int(self.replies.readline().split()[1]), 0, None
        while line := self.replies.readline().strip():
            name, value = line.lower().split(b":", 1)
            if name == b"content-length":
                length = int(value)
            if name == b"register-serial":
                self.entries = int(value)
        return status, self.replies.read(length).decode()
