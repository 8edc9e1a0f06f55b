"""A stand-in for a printer on loopback: keeps the bytes of each connection in a file of its own.

    python3 try_printer.py FOLDER

FOLDER/port gets the port once it listens; the connections are FOLDER/1, FOLDER/2, and so on, each
there when it has ended. TERM ends it.
"""

import os
import socket
import sys
from pathlib import Path


def received(connection: socket.socket) -> bytes:
    data = b""
    with connection:
        while part := connection.recv(65536):
            data += part
    return data


def put(path: Path, data: bytes) -> None:
    """Whoever sees the file sees it whole."""
    unfinished = path.with_name(f".{path.name}")
    unfinished.write_bytes(data)
    os.rename(unfinished, path)


def main() -> None:
    folder = Path(sys.argv[1])
    number = 0
    with socket.create_server(("127.0.0.1", 0)) as server:
        put(folder / "port", b"%d\n" % server.getsockname()[1])
        while True:
            connection, _ = server.accept()
            number += 1
            put(folder / str(number), received(connection))


if __name__ == "__main__":
    main()
