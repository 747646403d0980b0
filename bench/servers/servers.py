"""The servers of bench/servers: how each is built, started and ended. For bench/servers/run and bench/servers/many."""

import json
import pathlib
import shutil
import signal
import subprocess
import sys

HERE = pathlib.Path(__file__).resolve().parent
TOP = HERE.parent.parent
sys.path.insert(0, str(HERE.parent))
from netty_build import JARS  # noqa: E402

HIGH = 65536
LIFE = 900
OURS, JOINED, BUDGETED = "C, Limekeel", "C, Limekeel, joined", "C, Limekeel, under a budget"
PEER, NETTY = "C, by hand", "Netty"
CC = ["cc", "-std=gnu11", "-O2", "-Wall", "-Wextra", "-o"]


class Server:
    """A server that runs, and ends by itself."""

    def __init__(self, command, *words):
        self.process = subprocess.Popen([*command, *words], stdout=subprocess.PIPE, stderr=subprocess.DEVNULL, text=True,
                                        preexec_fn=lambda: signal.alarm(LIFE))
        self.port = self.process.stdout.readline().strip().rpartition(":")[2]

    def load(self, folder, *words):
        """What the load says, or nothing if it failed, which it says itself."""
        command = [folder / "load", self.port, str(self.process.pid), *words]
        done = subprocess.run(command, capture_output=True, text=True)
        if done.returncode != 0:
            print(f"load {' '.join(words)}: status {done.returncode} {done.stderr.strip()}", flush=True)
        return json.loads(done.stdout) if done.stdout else None

    def end(self):
        self.process.kill()
        self.process.wait()


def built(name, *commands):
    """Whether commands that build a server all passed."""
    for command in commands:
        if shutil.which(str(command[0])) is None:
            print(f"left out: {name}, since there is no {command[0]}")
            return False
        done = subprocess.run([str(word) for word in command], cwd=HERE, text=True, stdout=subprocess.PIPE, stderr=subprocess.STDOUT)
        if done.returncode != 0:
            print(f"left out: {name}, since it does not build:\n{done.stdout[-1500:]}")
            return False
    return True


def archive(folder):
    """Lays the archive out, and returns what a program in C adds to its command."""
    made = folder / "made"
    shutil.rmtree(made, ignore_errors=True)
    subprocess.run([TOP / "dist/make", made], check=True, stdout=subprocess.DEVNULL)
    return [f"-I{made}/include", made / "lib/liblimekeel.a"]


def build(folder, wanted=None, overhead=0):
    """Builds the load and the servers, all or those that are wanted, and returns how each is started. The overhead is what a
    message of the plain one counts beside its bytes."""
    include, library = archive(folder)
    subprocess.run([*CC, folder / "load", "load.c", "clients.c", "process.c", "-lpthread"], cwd=HERE, check=True)
    rust = ["cargo", "build", "--offline", "--release", "--quiet", "--manifest-path", "rust/Cargo.toml", "--target-dir"]
    recipes = {
        OURS: ([folder / "limekeel"],
               [*CC, folder / "limekeel", include, f"-DOVERHEAD={overhead}", "epoll_server.c", "queue_limekeel.c", library]),
        JOINED: ([folder / "joined"], [*CC, folder / "joined", include, "-DJOINED", "epoll_server.c", "queue_joined.c", library]),
        BUDGETED: ([folder / "budgeted"],
                   [*CC, folder / "budgeted", include, "-DBUDGETED", "epoll_server.c", "queue_budgeted.c", library]),
        PEER: ([folder / "by_hand"], [*CC, folder / "by_hand", "-DBY_HAND", "epoll_server.c", "queue_by_hand.c"]),
        "Rust, Limekeel": ([folder / "rust/release/limekeel-server"], [*rust, folder / "rust"]),
        "Rust, Limekeel, joined": ([folder / "rust_joined/release/limekeel-server"],
                                   [*rust, folder / "rust_joined", "--features", "joined"]),
        NETTY: (["java", "-cp", f"{folder}:{JARS}", "NettyServer"], ["javac", "-cp", JARS, "-d", folder, "NettyServer.java"]),
        "libuv": ([folder / "uv"], [*CC, folder / "uv", "uv_server.c", "-luv"]),
    }
    return {name: command for name, (command, recipe) in recipes.items() if (not wanted or name in wanted) and built(name, recipe)}


def row(cells):
    print("| " + " | ".join(cells) + " |", flush=True)
