"""Tools of the system that tests call, and a real client of CoAP among them."""

import os
import re
import shutil
import subprocess

KINDS = ("", "-notls", "-openssl", "-gnutls")
CLIENTS, SERVERS = (tuple(f"{name}{kind}" for kind in KINDS) for name in ("coap-client", "coap-server"))


def tool(names, package):
    """The path of the first of these tools that is there, or none.

    Where there is none it is installed from Debian's package, as root and only where FLEET_INSTALL is 1.
    """
    found = next((path for path in map(shutil.which, names) if path), None)
    may_install = os.environ.get("FLEET_INSTALL") == "1" and os.geteuid() == 0 and shutil.which("apt-get")
    if found or not may_install:
        return found
    for words in (["update"], ["install", "-y", "--no-install-recommends", package]):
        try:
            subprocess.run(["apt-get", *words], stdout=subprocess.DEVNULL, stderr=subprocess.DEVNULL, timeout=180)
        except (OSError, subprocess.TimeoutExpired):
            return None
    return next((path for path in map(shutil.which, names) if path), None)


def real_client():
    """The path of libcoap's client, or none."""
    return tool(CLIENTS, "libcoap3-bin")


def real_device():
    """The path of libcoap's server, or none."""
    return tool(SERVERS, "libcoap3-bin")


def asked_by_client(client, words, port, path):
    """The reply's code and the last segment of its Location-Path, as the client prints them."""
    words = [client, "-v", "7", "-B", "5", *words, f"coap://127.0.0.1:{port}/{path}"]
    ran = subprocess.run(words, stdout=subprocess.PIPE, stderr=subprocess.STDOUT, timeout=20, errors="replace")
    # the client prints what it sends and what comes; the last message with a response's code is the reply
    replies = re.findall(r"t:(?:ACK|NON|CON|RST) c:([2-5]\.\d\d)(.*)", ran.stdout)
    if not replies:
        return "none", ""
    code, rest = replies[-1]
    located = re.findall(r"Location-Path:([0-9a-f]+)", rest)
    return code, located[-1] if located else ""
