"""Sockets in network namespaces."""
import ctypes
import os
import socket

from lisp import PORT

LIBC = ctypes.CDLL(None, use_errno=True)
CLONE_NEWNET = 0x40000000


def checked(status):
    if status:
        number = ctypes.get_errno()
        raise OSError(number, os.strerror(number))


def own_namespace():
    """Puts this process, and what it starts from now on, into a new network namespace, which ends with them."""
    checked(LIBC.unshare(CLONE_NEWNET))


class Within:
    """With it, what the thread opens is in the named namespace."""

    def __init__(self, name):
        self.name, self.old = name, None

    def __enter__(self):
        self.old = os.open("/proc/thread-self/ns/net", os.O_RDONLY)
        new = os.open("/run/netns/" + self.name, os.O_RDONLY)
        try:
            checked(LIBC.setns(new, CLONE_NEWNET))
        finally:
            os.close(new)

    def __exit__(self, *_):
        checked(LIBC.setns(self.old, CLONE_NEWNET))
        os.close(self.old)


def bound(address, port=PORT):
    family = socket.AF_INET6 if ":" in address else socket.AF_INET
    made = socket.socket(family, socket.SOCK_DGRAM)
    made.bind((address, port))
    return made
