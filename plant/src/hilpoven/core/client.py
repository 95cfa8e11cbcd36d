"""How servers of `toll` are asked: the plant's words at FILE.sock, as `toll` itself hands them over, and HTTP at a
port."""
import contextlib
import json
import os
import socket
from collections.abc import Callable, Iterator, Sequence
from typing import TYPE_CHECKING, Any

from .. import OFFICE_VERSION, VERSION
from . import lock
from .failure import FAULT, Failure
from .office import Answer, Office

if TYPE_CHECKING:
    import subprocess
    from ssl import SSLContext

PATIENCE = 10  # seconds for a greeting, or for a reply to a request
MOST_GREETING = 64  # bytes
LEAST_ANSWER, MOST_ANSWER = 5, 2**32 - 1  # bytes
PIECE = 1 << 16
GREETING = f"toll {VERSION}, office format {OFFICE_VERSION}"  # of a server of this build
LOST = Answer(FAULT, "", "fault Lost\n")  # as `toll` answers if the server ended meanwhile
ENDED = Answer(FAULT, "", "")  # as `toll` answers if it is killed
BEGINS = 60.0  # seconds within which a server listens
MANY = 20  # lines, from which on a server is quicker, which reads the whole file before it listens
MOST_CONNECTIONS = "1000000"


def framed(content: bytes) -> bytes:
    """A content with its length in front."""
    return len(content).to_bytes(4) + content


def read(peer: socket.socket, count: int) -> bytes:
    """So many bytes, or fewer if no more come."""
    content = bytearray()
    while len(content) < count and (piece := peer.recv(min(PIECE, count - len(content)))):
        content += piece
    return bytes(content)


def read_frame(peer: socket.socket, most: int) -> bytes | None:
    """The content of the frame that comes; `None` if it doesn't come whole, or has more bytes than `most`."""
    size = int.from_bytes(head) if len(head := read(peer, 4)) == 4 else most + 1
    content = read(peer, size) if size <= most else b""
    return content if len(content) == size else None


class PlantSocket:
    """The socket beside an office's file, at which its server takes the plant's words."""

    def __init__(self, file: str) -> None:
        self.folder = os.open(os.path.dirname(file) or ".", os.O_PATH | os.O_DIRECTORY | os.O_CLOEXEC)
        self.file, self.name = file, os.path.basename(file)
        self.path = f"/proc/self/fd/{self.folder}/{self.name}.sock"  # a socket's path has 108 bytes at most

    def connected(self) -> tuple[socket.socket, str]:
        """A connection, and the server's greeting."""
        peer = socket.socket(socket.AF_UNIX)
        try:
            peer.settimeout(PATIENCE)
            peer.connect(self.path)
            return peer, (read_frame(peer, MOST_GREETING) or b"").decode(errors="replace")
        except BaseException:
            peer.close()
            raise

    def greeting(self) -> str:
        """What the server says first; empty if none is there. It opens nothing for that."""
        try:
            peer, greeting = self.connected()
        except OSError:
            return ""
        peer.close()
        return greeting

    def ask(self, words: list[str]) -> Answer | None:
        """What the server answers to the plant's words; `None` if no server of this build took them, so nothing was
        done."""
        try:
            peer, greeting = self.connected()
        except OSError:
            return None
        with peer:
            if greeting != GREETING:
                return None
            try:
                peer.sendall(words_of(words))
            except OSError:
                return None
            peer.settimeout(None)
            with contextlib.suppress(OSError):
                content = read_frame(peer, MOST_ANSWER)
                return answer_of(content) if content and len(content) >= LEAST_ANSWER else LOST
        return LOST

    def close(self) -> None:
        """Lets go of the file's folder."""
        os.close(self.folder)


def words_of(words: Sequence[str]) -> bytes:
    """The bytes in which the plant's words go to a server."""
    return framed(framed(b"".join(os.fsencode(word) + b"\0" for word in words)))


def answer_of(content: bytes) -> Answer:
    """The answer in a frame: the status, and the frames of what is printed and of what is told of a fault."""
    size = int.from_bytes(content[1:5])
    return Answer(
        content[0], content[5 : 5 + size].decode(errors="replace"), content[5 + size :].decode(errors="replace")
    )


def request_of(owner: str, key: str, path: str, body: Any = None) -> bytes:
    """The bytes of an owner's request: a `GET`, or with a body or `()` a `POST`."""
    text = b"" if not body else json.dumps(body).encode()
    head = (
        f"{'GET' if body is None else 'POST'} {path} HTTP/1.1",
        "host: toll",
        f"toll-owner: {owner}",
        f"toll-key: {key}",
        f"content-length: {len(text)}",
        "",
        "",
    )
    return "\r\n".join(head).encode() + text


def reply_at(peer: socket.socket) -> tuple[int, dict[str, Any]]:
    """The status and the body of the reply to a request; fails with ValueError if none comes whole."""
    with peer.makefile("rb") as reader:
        front, _, rest = reader.read().partition(b"\r\n\r\n")
        return int(front[9:12]), json.loads(rest)


def requested(peer: socket.socket, owner: str, key: str, path: str, body: Any = None) -> tuple[int, dict[str, Any]]:
    """The status and the body of the reply to an owner's request, which is sent over a connection."""
    peer.sendall(request_of(owner, key, path, body))
    return reply_at(peer)


def status_at(port: int, path: str = "/orders", tls: "SSLContext | None" = None, host: str = "toll") -> int:
    """The status of a request without a key at a port of this machine, in the clear or to a site of a host name: 403 is
    well for an office, 0 is no answer."""
    try:
        plain = socket.create_connection(("127.0.0.1", port), PATIENCE)
        with tls.wrap_socket(plain, server_hostname=host) if tls else plain as peer:
            peer.sendall(f"GET {path} HTTP/1.1\r\nhost: {host}\r\nconnection: close\r\n\r\n".encode())
            version, _, status = read(peer, len("HTTP/1.1 200")).decode(errors="replace").partition(" ")
            return int(status) if version.startswith("HTTP/1.") and status.isdecimal() else 0
    except OSError:
        return 0


@contextlib.contextmanager
def asker(office: Office, count: int) -> Iterator[Callable[[list[str]], Answer]]:
    """How so many lines are given to `toll`: a few by a process each; many at the socket of the file's server, or of
    one that is begun for them and ends behind them."""
    if count < MANY:
        yield office.ask
        return
    with contextlib.closing(PlantSocket(office.file)) as plant, contextlib.ExitStack() as stack:
        begun = 0
        if not plant.greeting():
            with contextlib.suppress(Failure):
                begun = stack.enter_context(server(office, plant))

        def ask(words: list[str]) -> Answer:
            answer = plant.ask(words)
            if answer is None:
                return office.ask(words)
            return ENDED if begun and answer is LOST else answer

        yield ask


@contextlib.contextmanager
def server(office: Office, plant: PlantSocket) -> Iterator[int]:
    """A server of the office for this process alone, by its port; fails if it doesn't begin. It is waited for while
    it reads the file: a process for each line would read as long each time."""
    process: "subprocess.Popen[bytes] | None" = None
    try:
        process, port = begin_server(office.program, plant)
        yield port
    finally:
        if process:
            end_server(process)
        remove_socket(office, plant)


def begin_server(
    program: str, plant: PlantSocket, patience: float | None = None, keeps_errors: bool = False
) -> "tuple[subprocess.Popen[bytes], int]":
    """A server of the file that has this socket, once it listens, and its port; fails if it doesn't within so many
    seconds. `setpriv` has the system kill it when this process is no more, and no terminal's signal reaches it."""
    import subprocess

    words = ["setpriv", "--pdeathsig", "KILL", program, "--db", plant.name, "serve", "0", MOST_CONNECTIONS]
    try:
        process = subprocess.Popen(
            words,
            cwd=f"/proc/self/fd/{plant.folder}",
            stdin=subprocess.DEVNULL,
            stdout=subprocess.PIPE,
            stderr=subprocess.PIPE if keeps_errors else subprocess.DEVNULL,
            process_group=0,
        )
    except OSError as error:
        raise Failure(f"{error.filename} can't be run: {error.strerror}") from error
    try:
        if port := listens(process, patience):
            return process, port
    except BaseException:
        end_server(process)
        raise
    raise Failure(f"no server of {plant.file} begins: {end_server(process)}")


def end_server(process: "subprocess.Popen[bytes]") -> str:
    """Ends a server that was begun; what it wrote on standard error, if that is kept."""
    process.kill()
    _, errors = process.communicate()
    return (errors or b"").decode(errors="replace").strip()


def listens(process: "subprocess.Popen[bytes]", patience: float | None) -> int:
    """The port at which a server that was begun comes to listen; 0 if it doesn't."""
    import select

    stdout = process.stdout
    line = stdout.readline() if stdout and select.select([stdout], [], [], patience)[0] else b""
    return int(line.split()[1]) if line.startswith(b"listening ") else 0


def remove_socket(office: Office, plant: PlantSocket) -> None:
    """Removes the socket file that a killed server left, under the lock, at which a server makes its own."""
    with contextlib.suppress(OSError, Failure), lock.held(office.file, office.wait):
        try:
            plant.connected()[0].close()
        except ConnectionRefusedError:
            os.unlink(plant.path)
