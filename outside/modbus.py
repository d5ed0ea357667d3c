"""Modbus TCP hosts that behave or misbehave, each on threads of its own, and a client of a few lines that says what comes of a write.

Sources: MODBUS Messaging on TCP/IP 1.0b, 3.1.3; MODBUS Application Protocol 1.1b3, 6.5, 6.6, 7."""

import socket
import struct
import threading
import time
from collections.abc import Callable

# What a host does with a frame on a connection, and whether the connection goes on.
Behave = Callable[[socket.socket, bytes], bool]

FRAME = 12
# A write of 45 to register 2 of unit 1, and one of 'on' to coil 19.
REGISTER_2 = bytes.fromhex("0001 0000 0006 01 06 0002 002d")
COIL_19 = bytes.fromhex("0001 0000 0006 01 05 0013 ff00")


def receive(connection: socket.socket, count: int) -> bytes:
    """So many bytes, or those that come before the end."""
    data = b""
    while len(data) < count:
        more = connection.recv(count - len(data))
        if not more:
            break
        data += more
    return data


# ---- what a host does with a frame: it sends something, and gives whether the connection goes on

def echo(connection: socket.socket, frame: bytes) -> bool:
    connection.sendall(frame)
    return True


def exception(code: int, function: int = 0x80) -> Behave:
    def answer(connection: socket.socket, frame: bytes) -> bool:
        connection.sendall(frame[:4] + b"\0\3" + frame[6:7] + bytes([frame[7] + function, code]))
        return True
    return answer


def silent(connection: socket.socket, frame: bytes) -> bool:
    return True


def half(connection: socket.socket, frame: bytes) -> bool:
    connection.sendall(frame[:7])
    return True


def half_and_end(connection: socket.socket, frame: bytes) -> bool:
    connection.sendall(frame[:7])
    return False


def end(connection: socket.socket, frame: bytes) -> bool:
    return False


def header_of_exception_and_end(connection: socket.socket, frame: bytes) -> bool:
    connection.sendall(frame[:4] + b"\0\3")
    return False


def reset(connection: socket.socket, frame: bytes) -> bool:
    # A linger of no time sends a reset in place of an end.
    connection.setsockopt(socket.SOL_SOCKET, socket.SO_LINGER, struct.pack("ii", 1, 0))
    return False


def changed(place: int) -> Behave:
    """The frame with another byte at this place."""
    def answer(connection: socket.socket, frame: bytes) -> bool:
        connection.sendall(frame[:place] + bytes([frame[place] ^ 1]) + frame[place + 1:])
        return True
    return answer


def web_server(connection: socket.socket, frame: bytes) -> bool:
    connection.sendall(b"HTTP/1.1 400 Bad Request\r\nConnection: close\r\n\r\n")
    return False


def byte_by_byte(pause: float) -> Behave:
    """The frame, and so many seconds after each of its bytes."""
    def answer(connection: socket.socket, frame: bytes) -> bool:
        for byte in frame:
            connection.sendall(bytes([byte]))
            time.sleep(pause)
        return True
    return answer


def echo_and_more(connection: socket.socket, frame: bytes) -> bool:
    connection.sendall(frame + b"\1\2\3")
    return True


class Host:
    """A host of Modbus TCP at a free port of 127.0.0.1. `behave` may be changed while it runs, and holds from the next frame on. With
    `idle` it ends each connection on which nothing came for so many seconds. `frames` are those that came, with their moments
    (time.monotonic); `connections` is how many there were."""

    def __init__(self, behave: Behave = echo, idle: float | None = None, accepts: bool = True) -> None:
        self.behave, self.idle = behave, idle
        self.frames: list[tuple[float, bytes]] = []
        self.connections, self.open = 0, set[socket.socket]()
        self.listener = socket.socket()
        self.listener.setsockopt(socket.SOL_SOCKET, socket.SO_REUSEADDR, 1)
        self.listener.bind(("127.0.0.1", 0))
        self.port = self.listener.getsockname()[1]
        self.address = f"127.0.0.1:{self.port}"
        self.waiting: list[socket.socket] = []
        if accepts:
            self.accept()
        else:
            self._fill()

    def accept(self) -> None:
        """Takes connections from now on."""
        for one in self.waiting:
            one.close()
        self.listener.listen(128)
        threading.Thread(target=self._accept, daemon=True).start()

    def _fill(self) -> None:
        """Has so many connections wait that the system takes no further one, and never takes any of them."""
        self.listener.listen(0)
        for _ in range(4):
            one = socket.socket()
            one.setblocking(False)
            one.connect_ex(("127.0.0.1", self.port))
            self.waiting.append(one)
        time.sleep(0.1)

    def _accept(self) -> None:
        while True:
            try:
                connection, _ = self.listener.accept()
            except OSError:
                return
            self.connections += 1
            self.open.add(connection)
            threading.Thread(target=self._serve, args=(connection,), daemon=True).start()

    def _serve(self, connection: socket.socket) -> None:
        try:
            connection.setsockopt(socket.IPPROTO_TCP, socket.TCP_NODELAY, 1)
            connection.settimeout(self.idle)
            while self._take(connection):
                pass
        except OSError:
            pass
        finally:
            self.open.discard(connection)
            connection.close()

    def _take(self, connection: socket.socket) -> bool:
        frame = receive(connection, FRAME)
        if len(frame) < FRAME:
            return False
        self.frames.append((time.monotonic(), frame))
        return self.behave(connection, frame)

    def forget(self) -> None:
        """Forgets what came so far."""
        self.frames, self.connections = [], 0

    def stop(self) -> None:
        """Refuses connections, and ends those that there are."""
        # A close alone would not wake the thread that accepts.
        try:
            self.listener.shutdown(socket.SHUT_RDWR)
        except OSError:
            pass
        self.listener.close()
        for connection in [*self.open, *self.waiting]:
            try:
                connection.shutdown(socket.SHUT_RDWR)
            except OSError:
                pass


# ---- a client

def connected(address: str, patience: float = 60) -> socket.socket:
    """A connection to HOST:PORT."""
    name, _, port = address.rpartition(":")
    connection = socket.create_connection((name, int(port)), timeout=patience)
    connection.setsockopt(socket.IPPROTO_TCP, socket.TCP_NODELAY, 1)
    return connection


def came_of(address: str, frame: bytes = REGISTER_2, patience: float = 1.5) -> str:
    """What comes of one write: echo, exception CODE, wrong, ended, reset, refused, or silent where nothing came for so long."""
    try:
        with connected(address, patience) as connection:
            connection.sendall(frame)
            return judged(connection, frame)
    except socket.timeout:
        return "silent"
    except ConnectionRefusedError:
        return "refused"
    except (ConnectionResetError, BrokenPipeError):
        return "reset"


def judged(connection: socket.socket, frame: bytes) -> str:
    first = receive(connection, 6)
    length = {frame[:6]: 6, frame[:4] + b"\0\3": 3}.get(first)
    if length is None:
        return "wrong" if len(first) == 6 else "ended"
    rest = receive(connection, length)
    if len(rest) < length:
        return "ended"
    if first + rest == frame:
        return "echo"
    return f"exception {rest[2]}" if rest[:2] == bytes([frame[6], frame[7] + 0x80]) and length == 3 else "wrong"
