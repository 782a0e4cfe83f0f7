"""A plain forwarder of TCP between clients and a server, which records what both sides sent."""

import contextlib
import socket
import threading

from serving import HOST, PIECE, connect

REPLY = b"HTTP/1.1 200 OK\r\nContent-Length: 2\r\nContent-Type: text/html\r\nConnection: close\r\n\r\n{}"


class Forwarder:
    """Forwards connections to a port, or answers them itself if there is none, and records what both sides sent."""

    def __init__(self, port=None):
        self.to, self.kept = port, []
        self.listener = socket.create_server((HOST, 0))
        self.port = self.listener.getsockname()[1]
        threading.Thread(target=self.accept_all, daemon=True).start()

    def accept_all(self):
        with contextlib.suppress(OSError):
            while True:
                wire = self.listener.accept()[0]
                threading.Thread(target=self.serve, args=(wire,), daemon=True).start()

    def serve(self, wire):
        said = {"asked": b"", "answered": b""}
        self.kept.append(said)
        with wire, contextlib.suppress(OSError):
            if self.to is None:
                said["asked"] = wire.recv(PIECE)
                wire.sendall(REPLY)
                return
            with connect(self.to) as on:
                back = threading.Thread(target=copy, args=(on, wire, said, "answered"), daemon=True)
                back.start()
                copy(wire, on, said, "asked")
                back.join()

    def asked(self):
        return [said for said in list(self.kept) if said["asked"]]


def copy(source, sink, said, which):
    """Forwards what one side sends, to its end."""
    with contextlib.suppress(OSError):
        while piece := source.recv(PIECE):
            said[which] += piece
            sink.sendall(piece)
    with contextlib.suppress(OSError):
        sink.shutdown(socket.SHUT_WR)
