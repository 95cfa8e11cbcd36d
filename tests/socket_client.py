"""The plant's socket FILE.sock, as the program's own side and the server's see it."""
import os
import socket
import struct

from tests.harness import PATIENCE, Office


def parcel(content: bytes) -> bytes:
    return struct.pack(">I", len(content)) + content


def question(*words: str) -> bytes:
    """What the program sends of these words."""
    return parcel(parcel(b"".join(word.encode() + b"\0" for word in words)))


def answer(status: int, out: bytes, err: bytes = b"") -> bytes:
    """What a server answers."""
    return parcel(bytes([status]) + parcel(out) + err)


def take(peer: socket.socket, size: int) -> bytes:
    """So many bytes, less where the peer ends."""
    taken = b""
    while len(taken) < size and (chunk := peer.recv(size - len(taken))):
        taken += chunk
    return taken


def take_parcel(peer: socket.socket) -> bytes:
    head = take(peer, 4)
    return head + take(peer, struct.unpack(">I", head)[0]) if len(head) == 4 else head


def connect(path: str | os.PathLike[str]) -> socket.socket:
    peer = socket.socket(socket.AF_UNIX)
    peer.settimeout(PATIENCE)
    peer.connect(os.fspath(path))
    return peer


def path_of(office: Office) -> str:
    return office.db + ".sock"


def ask(office: Office, *words: str) -> bytes:
    """What the server answers to these words, without the program."""
    with connect(path_of(office)) as peer:
        take_parcel(peer)
        peer.sendall(question(*words))
        return take_parcel(peer)
