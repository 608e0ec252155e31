"""Ports of the loopback for servers and clients of a test."""

import socket


def free_port(over=1, remainder=0):
    """A UDP port of 127.0.0.1 that is free; divided by `over`, its number leaves the remainder."""
    for _ in range(1000):
        with socket.socket(socket.AF_INET, socket.SOCK_DGRAM) as it:
            it.bind(("127.0.0.1", 0))
            port = it.getsockname()[1]
        if port % over == remainder:
            return port
    raise SystemExit("no free port was found")
