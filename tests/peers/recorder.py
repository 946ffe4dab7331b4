"""Recorders, which keep the octets that a sender sends."""
import socket
import threading
import time

from lib import reference
from lib.loopback import HERE, NEVER, kind_of

FRAMINGS = {"lines": "lf", "counted": "counted"}  # of the ways by TCP; the third way is "udp"
SETTLED = 0.6  # seconds without an octet, after which a sender has sent what it will


class Recorder:
    """A socket that keeps the octets of one connection, or datagrams, as they come."""

    def __init__(self, way):
        self.way = way
        self.socket = socket.socket(socket.AF_INET, kind_of(way))
        self.socket.bind((HERE, 0))
        self.port = self.socket.getsockname()[1]
        self.pieces, self.closing = [], False
        if way != "udp":
            self.socket.listen()
        self.thread = threading.Thread(target=self.record, daemon=True)
        self.thread.start()

    def record(self):
        try:
            one = self.socket if self.way == "udp" else self.socket.accept()[0]
            while (piece := one.recv(1 << 20)) or self.way == "udp" and not self.closing:
                self.pieces.append(piece)
        except OSError:
            pass  # no connection came

    def close(self):
        """Ends once the connection has ended, if there is one; what else is in the socket is kept too."""
        if self.way != "udp" and self.pieces:
            self.thread.join(NEVER)
        self.closing = True
        try:
            self.socket.shutdown(socket.SHUT_RDWR)
        except OSError:
            pass  # a socket without a peer, whose reader is woken all the same
        self.thread.join(NEVER)
        self.socket.close()

    def frames(self):
        """The frames, and how the stream ends if not after one."""
        return (list(self.pieces), None) if self.way == "udp" else reference.frames_of(b"".join(self.pieces), FRAMINGS[self.way])


def settle(recorders):
    """Waits until nothing more comes."""
    sizes, since = None, time.monotonic()
    while time.monotonic() - since < (SETTLED if sizes and all(sizes) else 10 * SETTLED):
        now = [len(one.pieces) for one in recorders]
        if now != sizes:
            sizes, since = now, time.monotonic()
        time.sleep(0.02)
