"""Clients that misbehave, and what a server that lives with them has to make of each.

A server is started with HIGH MOST WINDOW LEAST DRAIN, and prints the ports of its echo and of its numbers. Beside clients that
behave, of which each byte has to come back, one reads nothing, one reads a byte a second, one resets, one ends its half,
one does so while bytes wait for it, and one floods. At SIGTERM it ends in order: what was heard is sent, and the numbers add up.
"""

import contextlib
import functools
import re
import signal
import socket
import struct
import subprocess
import threading
import time

# in bytes, and of the window and the end in milliseconds
HIGH, WINDOW, LEAST, DRAIN = 65536, 1500, 20_000, 4000
SECONDS = 60
# what a message counts beside its own bytes
OVERHEAD = 96
FLOOD = 64 << 20
NUMBER = re.compile(r'^limekeel_(\w+)(?:\{\w+="(\w+)"\})? (\d+)$', re.M)


def pattern(start, count):
    block = bytes((7 * place) % 251 for place in range(251))
    at = start % 251
    return (block * (count // 251 + 2))[at : at + count]


def numbers_in(text):
    return {f"{name} {label}".strip(): int(number) for name, label, number in NUMBER.findall(text)}


def do_not_add_up(numbers):
    """What of the numbers is not so at each moment."""
    ends = ("sent", "failed", "cancelled", "pending")
    sums = {kind: sum(numbers[f"{kind} {end}"] for end in ends) for kind in ("messages", "bytes")}
    return [f"{kind}: {numbers[f'{kind} accepted']} accepted, and {ended} ended or pending"
            for kind, ended in sums.items() if numbers[f"{kind} accepted"] != ended]


class Client(threading.Thread):
    """One client; what is wrong with what came stands in `fault`."""

    def __init__(self, port, behaves, room=None):
        super().__init__(daemon=True)
        self.of_numbers = None
        self.port, self.behaves, self.room, self.fault, self.came = port, behaves, room, None, 0

    def run(self):
        try:
            with socket.socket() as link:
                if self.room:
                    link.setsockopt(socket.SOL_SOCKET, socket.SO_RCVBUF, self.room)
                link.connect(("127.0.0.1", self.port))
                link.settimeout(SECONDS)
                self.behaves(self, link)
        except OSError as error:
            self.fault = self.fault or f"{type(error).__name__}: {error}"

    def wants(self, link, until, pause=0.0):
        """Each byte up to this one comes back, and no other."""
        while self.came < until:
            time.sleep(pause)
            came = link.recv(min(1 << 16, until - self.came))
            if came != pattern(self.came, len(came)) or not came:
                self.fault = f"behind {self.came} bytes came {len(came)} that were not sent"
                return False
            self.came += len(came)
        return True

    def waits_for_the_end(self, link, bytes_a_second=0):
        """The server gives it up: the link is broken for who writes."""
        for _ in range(int(WINDOW / 1000 * 6)):
            time.sleep(1)
            try:
                if bytes_a_second:
                    link.recv(bytes_a_second)
                link.send(b"x")
            except ConnectionError:
                return
            except OSError:
                pass
        self.fault = "the server kept it"


def talks(client, link):
    """Says something, hears it, and says more."""
    for turn in range(200):
        size = 1 + 37 * turn
        link.sendall(pattern(client.came, size))
        if not client.wants(link, client.came + size):
            return
        time.sleep(0.01)
    link.shutdown(socket.SHUT_WR)
    if link.recv(1):
        client.fault = "more came than was sent"


def ends_its_half(client, link):
    """Sends more than the system keeps, and ends; it reads slowly, so that something waits when the server hears the end."""
    sent = 12 << 20

    def sends():
        with contextlib.suppress(OSError):
            link.sendall(pattern(0, sent))
            link.shutdown(socket.SHUT_WR)

    sender = threading.Thread(target=sends, daemon=True)
    sender.start()
    time.sleep(0.3)
    if client.wants(link, sent, pause=0.002) and link.recv(1):
        client.fault = "more came than was sent"
    sender.join(SECONDS)


def ends_over_what_waits(client, link):
    """Reads nothing, sends until something waits for it in the server, and ends its half at once; only then it reads. A server
    that goes away when it hears the end takes with it what waits."""
    sent, step = 0, 1 << 15
    while sent < 64 << 20:
        link.sendall(pattern(sent, step))
        sent += step
        time.sleep(0.01)
        if numbers_in(scraped(client.of_numbers))["bytes pending"]:
            break
    link.shutdown(socket.SHUT_WR)
    time.sleep(0.3)
    if client.wants(link, sent) and link.recv(1):
        client.fault = "more came than was sent"


def resets(client, link):
    """Goes away with a reset, while bytes are on the way."""
    link.sendall(pattern(0, 100_000))
    link.recv(1000)
    link.setsockopt(socket.SOL_SOCKET, socket.SO_LINGER, struct.pack("ii", 1, 0))


def floods(client, link):
    """Sends without end, and reads nothing."""
    link.settimeout(WINDOW / 1000 * 6)
    with contextlib.suppress(OSError):
        for start in range(0, FLOOD, 1 << 16):
            link.sendall(pattern(start, 1 << 16))
        client.fault = f"the server heard {FLOOD} bytes of it"


def sends_until_it_is_full(link):
    link.settimeout(1)
    with contextlib.suppress(OSError):
        for start in range(0, 16 << 20, 1 << 14):
            link.sendall(pattern(start, 1 << 14))


def reads_nothing(client, link):
    """Sends until the server takes no more, and never reads."""
    sends_until_it_is_full(link)
    client.waits_for_the_end(link)


def reads_a_byte_a_second(client, link):
    """The same, but for a byte a second."""
    sends_until_it_is_full(link)
    client.waits_for_the_end(link, bytes_a_second=1)


def reads_late(client, link, over):
    """Sends until the server takes no more, and reads only once that is told to end: all that it heard, and then the end."""
    sends_until_it_is_full(link)
    link.settimeout(SECONDS)
    over.wait(SECONDS)
    while came := link.recv(1 << 16):
        if came != pattern(client.came, len(came)):
            client.fault = f"behind {client.came} bytes came {len(came)} that were not sent"
            return
        client.came += len(came)


def stays(client, link):
    """Is there at the end: it hears what it said, and then the end."""
    link.sendall(pattern(0, 50_000))
    if client.wants(link, 50_000) and link.recv(1):
        client.fault = "more came than was sent"


def scraped(port):
    """What the server tells to who asks for its numbers."""
    with socket.create_connection(("127.0.0.1", port), timeout=SECONDS) as link:
        link.sendall(b"GET /metrics HTTP/1.0\r\n\r\n")
        return link.makefile(newline="").read()


def among(command, most, window, some, wanted):
    """What is wrong with a server that may hold this much for a client, among these clients and some that are there to the end,
    and how much was looked at."""
    words, over = [str(word) for word in (HIGH, most, window, LEAST, DRAIN)], threading.Event()
    with subprocess.Popen([*command, *words], stdout=subprocess.PIPE, stderr=subprocess.PIPE, text=True) as server:
        port, of_numbers = (int(server.stdout.readline().rpartition(":")[2]) for _ in range(2))
        clients = {name: Client(port, *how) for name, how in some.items()}
        for client in clients.values():
            client.of_numbers = of_numbers
            client.start()
        for client in clients.values():
            client.join(SECONDS)
        late = {f"a client that stays {at}": Client(port, stays) for at in range(4)}
        if not some:
            how = functools.partial(reads_late, over=over)
            late |= {f"a client that reads late {at}": Client(port, how, 1 << 14) for at in range(4)}
        for client in late.values():
            client.start()
        time.sleep(1 if some else 3)
        page = scraped(of_numbers)
        told = time.monotonic()
        server.send_signal(signal.SIGTERM)
        over.set()
        try:
            out, errors = server.communicate(timeout=SECONDS)
        except subprocess.TimeoutExpired:
            server.kill()
            out, errors = server.communicate()[0], "the server did not end"
        for client in late.values():
            client.join(SECONDS)
    clients |= late
    failed = [f"{name}: {client.fault}" for name, client in clients.items() if client.fault]
    failed += [f"{name} did not end" for name, client in clients.items() if client.is_alive()]
    failed += [f"the server: {errors.strip()}, status {server.returncode}"] if errors or server.returncode else []
    failed += ["each client ends in time, and the server did not"] if time.monotonic() > told + DRAIN / 1000 * 0.8 else []
    if not some:
        # each byte that was accepted came to somebody
        last, came = numbers_in(out), sum(client.came for client in clients.values()) + len(page)
        if last["bytes sent"] - OVERHEAD * last["messages sent"] != came or last["messages failed"]:
            failed.append(f"{came} bytes came, and it tells of {out}")
    return failed + of_numbers_told(page, out, most, wanted), len(clients) + 4


def of_numbers_told(page, out, most, wanted):
    """What is otherwise than it is to be in the numbers, while it serves and at its end."""
    if not page.startswith("HTTP/1.0 200 OK"):
        return [f"the numbers: {page[:200]!r}"]
    here, last = numbers_in(page), numbers_in(out)
    failed = do_not_add_up(here) + do_not_add_up(last)
    failed += [] if last.get("clients") == 0 and last.get("bytes pending") == 0 else [f"at its end: {out}"]
    failed += [] if here.get("clients", 0) >= 4 else [f"four stay: {page}"]
    failed += [] if 0 < last.get("peak_pending_bytes", 0) <= most else ["more was pending than may be"]
    failed += [f"{cause}: {out}" for cause, least in wanted.items() if last.get(f"given_up_total {cause}", 0) < least]
    failed += [] if last.get("given_up_total late", 1) == 0 else [f"nobody is late: {out}"]
    # who stalls is stopped for about a window, who floods past the limit is refused, and no other call is
    stalled, full = wanted.get("stalled", 0), wanted.get("full", 0)
    failed += [] if last.get("stops_total", -1) >= stalled else [f"{stalled} were stopped: {out}"]
    failed += [] if last.get("stopped_milliseconds_total", -1) >= stalled * WINDOW * 0.8 else [f"for how long: {out}"]
    reasons = {name.partition(" ")[2]: number for name, number in last.items() if name.startswith("refusals_total")}
    failed += [] if len(reasons) == 12 and reasons.get("full", -1) >= full else [f"the refusals: {out}"]
    failed += [f"refused: {out}" for reason, number in reasons.items() if number and reason not in ("full", "finishing", "closed")]
    return failed


def served(command):
    """What is wrong with a server that lives with any client, and how much was looked at."""
    talk = {f"a client that talks {at}": (talks,) for at in range(8)}
    misbehave = {
        "a client that ends its half": (ends_its_half, 1 << 14),
        "a client that resets": (resets,),
        "a client that reads nothing": (reads_nothing, 1 << 14),
        "a client that reads a byte a second": (reads_a_byte_a_second, 1 << 14),
        "a client that floods": (floods, 1 << 14),
    }
    # above the high mark no more is read, so that what may be pending is reached only if it is less
    runs = [among(command, 200_000, WINDOW, talk | misbehave, {"stalled": 3, "broken": 1}),
            among(command, 30_000, WINDOW, talk | {"a client that floods": (floods, 1 << 14)}, {"full": 1}),
            among(command, 200_000, SECONDS * 1000, {"a client that ends over what waits": (ends_over_what_waits, 1 << 14)}, {}),
            among(command, 200_000, SECONDS * 1000, {}, {})]
    return [text for failed, _ in runs for text in failed], sum(count for _, count in runs)
