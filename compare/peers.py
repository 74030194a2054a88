"""What compare/hives and compare/letters share: libraries that others wrote, out of Debian's packages, and the proved programs."""
import array
import fcntl
import glob
import itertools
import os
import subprocess
import termios
import time

HERE = os.path.dirname(os.path.abspath(__file__))
ROOT = os.path.dirname(HERE)
PEERS = os.path.join(HERE, "target/peers")


def unpacked(package, pattern):
    """The library file of a Debian package, downloaded and unpacked below compare/target/peers; nothing is installed. None where it cannot
    be had."""
    find = lambda: [f for lib in ("usr/lib", "lib") for f in glob.glob(os.path.join(PEERS, "tree", lib, "*", pattern))]
    if not find():
        os.makedirs(PEERS, exist_ok=True)
        if subprocess.run(["apt-get", "download", package], cwd=PEERS, capture_output=True).returncode == 0:
            for deb in glob.glob(os.path.join(PEERS, package + "_*.deb")):
                subprocess.run(["dpkg", "-x", deb, os.path.join(PEERS, "tree")], check=True)
    return next(iter(find()), None)


def declared(library, name, result, *arguments):
    f = getattr(library, name)
    f.restype, f.argtypes = result, arguments
    return f


def program(name, given):
    """What a proved program writes."""
    return subprocess.run([os.path.join(HERE, "program"), name], input=given, capture_output=True, check=True).stdout.decode()


def in_pieces(name, given, lengths):
    """The same, where a pipe delivers the input in pieces of these lengths, in turn and again, each when the one before it has been read."""
    run = subprocess.Popen([os.path.join(HERE, "program"), name], stdin=subprocess.PIPE, stdout=subprocess.PIPE, bufsize=0)
    at, ahead, unread = 0, itertools.cycle(lengths), array.array("i", [0])
    try:
        while at < len(given):
            piece = given[at:at + next(ahead)]
            run.stdin.write(piece)
            at += len(piece)
            while run.poll() is None and not fcntl.ioctl(run.stdin, termios.FIONREAD, unread) and unread[0]:
                time.sleep(0.0001)
    except BrokenPipeError:  # it has read all that it reads
        pass
    run.stdin.close()
    with run.stdout as out:
        lines = out.read().decode()
    assert run.wait() == 0
    return lines


def case(tag, words, image=b""):
    """A case of the stream (compare/README.md) with all its words, and an image where one is given."""
    mask = 31 | (64 if image else 0)
    head = bytes([tag, mask]) + b"".join((w & 0xFFFFFFFF).to_bytes(4, "little") for w in words)
    return head + (len(image).to_bytes(4, "little") + image if image else b"")
