"""Finds Netty's jars and compiles bench/netty_driver against them, for bench/netty and bench/cycle."""

import os
import pathlib
import shutil
import subprocess
import sys

HERE = pathlib.Path(__file__).resolve().parent
DEBIAN = ":".join(f"/usr/share/java/{name}.jar" for name in (
    "netty-common", "netty-buffer", "netty-resolver", "netty-transport", "jctools-core",
))
JARS = os.environ.get("NETTY_JARS") or DEBIAN
MISSING = """On Debian: apt-get install default-jdk-headless libnetty-java
Elsewhere: netty-common, netty-buffer, netty-resolver and netty-transport of one version 4.1, as its release has them,
and then NETTY_JARS=FILE:FILE:FILE:FILE before the command"""


def compile_driver(classes):
    """Compiles the driver of Netty, or ends this program if a JDK or a jar is missing."""
    lacking = [name for name in ("javac", "java") if shutil.which(name) is None]
    lacking += [jar for jar in JARS.split(":") if not os.path.exists(jar)]
    if lacking:
        print(f"not there: {', '.join(lacking)}\n{MISSING}", file=sys.stderr)
        sys.exit(3)
    sources = sorted(map(str, (HERE / "netty_driver").glob("*.java")))
    subprocess.run(["javac", "-cp", JARS, "-d", classes, *sources], check=True)


def driver(classes, name):
    """The words that run this class of the driver."""
    return ["java", "-cp", f"{classes}:{JARS}", f"io.netty.channel.{name}"]
