"""Clients that fill the budget of a server, and what each pattern of ffi/examples/budget_server.c has to make of that.

Each stuck client asks for an answer and reads nothing. A check of a pattern says what is wrong, and has to find something wrong
with the server without that pattern, so that it cannot pass for another reason. Each byte that comes is compared, and the server
never tells of more than its room.
"""

import contextlib
import re
import signal
import socket
import subprocess
import time

# Seven answers of LARGE fit into the room with what each counts besides, and pressure begins with the fourth of them.
ROOM, HIGH, LARGE, SMALL = 8_000_000, 4_000_000, 1_000_000, 64
# what such an answer counts
COUNTS = LARGE + len(f"{LARGE}\n") + 96
SECONDS = 30
# how long nothing comes from a server that does not answer
SILENCE = 0.7
PATTERN = bytes(7 * at % 251 for at in range(LARGE))


class Fault(Exception):
    """What was otherwise than it is to be."""


class Client:
    """One client: it asks, and reads what it asked for or not."""

    def __init__(self, port):
        self.link = socket.socket()
        self.link.setsockopt(socket.SOL_SOCKET, socket.SO_RCVBUF, 1 << 14)
        # with the segments of loopback the system takes whole answers
        self.link.setsockopt(socket.IPPROTO_TCP, socket.TCP_MAXSEG, 1448)
        self.link.connect(("127.0.0.1", port))
        self.link.settimeout(SECONDS)
        self.stream = self.link.makefile("rb")

    def ask(self, size):
        self.link.sendall(f"{size}\n".encode())

    def reads(self, what, size):
        """The answer of this size comes, and is right."""
        head = self.stream.readline()
        came = self.stream.read(size) if head == f"{size}\n".encode() else b""
        if came != PATTERN[:size]:
            raise Fault(f"{what}: {head!r} and {len(came)} bytes came in place of {size}")

    def gets(self, what, size, answer=None):
        self.ask(size)
        self.reads(what, size if answer is None else answer)

    def hears_nothing(self, what):
        self.link.settimeout(SILENCE)
        with contextlib.suppress(TimeoutError):
            came = self.link.recv(1, socket.MSG_PEEK)
            raise Fault(f"{what}: {came!r} came")
        self.link.settimeout(SECONDS)

    def is_given_up(self, what):
        """Its connection ends before its answer does."""
        try:
            came = len(self.stream.read())
        except ConnectionError:
            return
        if came >= LARGE:
            raise Fault(f"{what}: {came} bytes came")


class Server:
    """A server with a pattern."""

    def __init__(self, command, pattern):
        words = [*command, str(ROOM), str(HIGH), pattern]
        self.process = subprocess.Popen(words, stdout=subprocess.PIPE, stderr=subprocess.PIPE, text=True)
        self.port, self.numbers = (int(self.process.stdout.readline().rpartition(":")[2]) for _ in range(2))
        self.clients = []

    def client(self):
        self.clients.append(Client(self.port))
        return self.clients[-1]

    def told(self):
        with socket.create_connection(("127.0.0.1", self.numbers), timeout=SECONDS) as link:
            told = {name: int(number) for name, number in re.findall(r"^(\w+) (\d+)$", link.makefile().read(), re.M)}
        if told["total"] > ROOM:
            raise Fault(f"more than the room: {told}")
        return told

    def until(self, what, **wanted):
        """The numbers come to be these."""
        end = time.monotonic() + SECONDS
        while any(self.told()[name] != number for name, number in wanted.items()):
            if time.monotonic() > end:
                raise Fault(f"{what}: {self.told()} in place of {wanted}")
            time.sleep(0.01)

    def stuck(self, count):
        """As many clients more that ask and read nothing, in their order."""
        clients = []
        for _ in range(count):
            before = self.told()["total"]
            clients.append(self.client())
            clients[-1].ask(LARGE)
            self.until("a stuck one is counted", total=before + COUNTS)
        return clients

    def ends(self):
        """It ends well at SIGTERM, also with clients."""
        self.process.send_signal(signal.SIGTERM)
        _, errors = self.process.communicate(timeout=SECONDS)
        if errors or self.process.returncode:
            raise Fault(f"the server: {errors.strip()}, status {self.process.returncode}")


def wait(server):
    """An answer without room comes once there is some."""
    stuck, late = server.stuck(7), server.client()
    late.ask(LARGE)
    late.hears_nothing("an answer without room")
    stuck[0].reads("a stuck one that reads", LARGE)
    late.reads("who waited", LARGE)
    for client in stuck[1:]:
        client.reads("each other", LARGE)
    server.until("all was sent", total=0, pressed=0, given_up=0)


def slowest(server):
    """Who is stuck longest gives way, and no other; each that takes its bytes gets them."""
    crowd = [server.client() for _ in range(10)]
    for client in crowd:
        client.ask(LARGE)
    server.until("the room is full", total=7 * COUNTS, given_up=0)
    for client in crowd:
        client.reads("who takes its answer among more than the room has", LARGE)
    server.until("nobody was slow", total=0, given_up=0)
    stuck, fast = server.stuck(7), server.client()
    fast.link.settimeout(3)
    for _ in range(20):
        fast.gets("who takes its answers", LARGE)
    server.until("one was enough", given_up=1)
    stuck[0].is_given_up("the first that was stuck")
    for client in stuck[1:]:
        client.reads("who was stuck less long", LARGE)
    server.until("all was sent", total=0, pressed=0)


def closed(server):
    """Nobody is accepted while pressure stands, and who is in goes on."""
    inside = server.client()
    inside.gets("before", LARGE)
    stuck = server.stuck(4)
    server.until("pressure", pressed=1)
    outside = server.client()
    outside.ask(1000)
    outside.hears_nothing("who came under pressure")
    inside.gets("who was in", LARGE)
    for client in stuck:
        client.reads("a stuck one that reads", LARGE)
    outside.reads("who came under pressure, after its end", 1000)
    server.until("all was sent", total=0, pressed=0, given_up=0)


def smaller(server):
    """While pressure stands an answer is small, and after it whole."""
    client = server.client()
    client.gets("before", LARGE)
    stuck = server.stuck(4)
    server.until("pressure", pressed=1)
    client.gets("under pressure", LARGE, answer=SMALL)
    for one in stuck:
        one.reads("a stuck one that reads", LARGE)
    server.until("it ends", pressed=0)
    client.gets("and after it", LARGE)
    server.until("all was sent", total=0, given_up=0)


def fault_of(check, command, pattern):
    """What a check finds wrong with a server of this pattern, or nothing."""
    server = Server(command, pattern)
    try:
        check(server)
        server.ends()
    except (Fault, OSError) as fault:
        return f"{type(fault).__name__}: {fault}"
    finally:
        server.process.kill()
        server.process.wait()
        server.process.stdout.close()
        server.process.stderr.close()
        for client in server.clients:
            client.stream.close()
            client.link.close()
    return None


def patterns(command):
    """By what was looked at, what was wrong with it, or nothing."""
    found = {"without a pattern": fault_of(wait, command, "wait")}
    for check in (slowest, closed, smaller):
        name = check.__name__
        found[f"the pattern {name}"] = fault_of(check, command, name)
        found[f"and its test fails without {name}"] = None if fault_of(check, command, "wait") else "it passed"
    return found
