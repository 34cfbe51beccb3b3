"""The tools as modules, for tests that call a part of one, and what a program tells that may change no file."""
import contextlib
import errno
import importlib.machinery
import importlib.util
import os
import socket
import time

from tests import TOP

# A command that waits as long as a FIFO is there and open. It may change no file, so it can do nothing else meanwhile.
WAITING = '#!/bin/sh\n[ -p "$FIFO" ] && read told <"$FIFO"\nexec "$BUILT" "$@"\n'


def tool(name):
    return os.path.join(TOP, "tools", name)


def loaded(path):
    """A program as a module."""
    loader = importlib.machinery.SourceFileLoader(os.path.basename(path).replace("-", "_").partition(".")[0], path)
    module = importlib.util.module_from_spec(importlib.util.spec_from_loader(loader.name, loader))
    loader.exec_module(module)
    return module


class Told:
    """Lines that programs tell who may change no file, by datagrams of this machine alone."""

    def __init__(self):
        self.socket = socket.socket(socket.AF_INET, socket.SOCK_DGRAM)
        self.socket.bind(("127.0.0.1", 0))
        self.socket.setblocking(False)
        self.tell = "bash -c 'cat >/dev/udp/127.0.0.1/%d'" % self.socket.getsockname()[1]  # tells the lines that it reads

    def lines(self):
        """The lines that were told since the last call."""
        found = b""
        with contextlib.suppress(BlockingIOError):
            while True:
                found += self.socket.recv(2 ** 16)
        return found.decode().splitlines()


def writer_to(path, child):
    """Waits until what the child has started reads a FIFO. Returns a descriptor that writes to it."""
    while True:
        try:
            return os.open(path, os.O_WRONLY | os.O_NONBLOCK)
        except OSError as fault:
            assert fault.errno == errno.ENXIO and child.poll() is None, "the FIFO isn't read"
        time.sleep(0.01)


def is_read(writer):
    """Whether something still has the other end open of what this descriptor writes to."""
    try:
        os.write(writer, b"\n")
    except BrokenPipeError:
        return False
    return True
