"""transfer receive|send ADDRESS FILE: receives a file on an address by TCP, or sends it there. `live` runs it in the namespaces of two hosts."""
import socket
import sys
import time

PORT = 7777
PATIENCE = 10


def receive(address, path):
    with socket.create_server((address, PORT), family=socket.AF_INET6) as server, open(path, "wb") as file:
        server.settimeout(PATIENCE)
        connection, _ = server.accept()
        with connection:
            connection.settimeout(PATIENCE)
            while part := connection.recv(65536):
                file.write(part)


def send(address, path):
    with connect(address, time.monotonic() + PATIENCE) as connection, open(path, "rb") as file:
        connection.sendall(file.read())


def connect(address, until):
    """Returns a connection, once the receiver listens."""
    while True:
        try:
            return socket.create_connection((address, PORT), timeout=PATIENCE)
        except ConnectionRefusedError:
            if time.monotonic() > until:
                raise
            time.sleep(0.1)


{"receive": receive, "send": send}[sys.argv[1]](*sys.argv[2:])
