"""Tests that the page of the installed module is served: with its token alone, until it is interrupted.

    page.py FILE COMMAND...    a file of left-hand sides, and the command that serves the page

In a root without a network it first turns the loopback device on."""
import fcntl
import re
import signal
import socket
import struct
import subprocess
import sys
import urllib.error
import urllib.request

GET_FLAGS, SET_FLAGS, UP = 0x8913, 0x8914, 1


def turn_on_loopback():
    with socket.socket(socket.AF_INET, socket.SOCK_DGRAM) as device:
        name, flags = struct.unpack("16sh", fcntl.ioctl(device, GET_FLAGS, struct.pack("16sh", b"lo", 0)))
        if not flags & UP:
            fcntl.ioctl(device, SET_FLAGS, struct.pack("16sh", name, flags | UP))


def status(address):
    try:
        with urllib.request.urlopen(address, timeout=20) as answer:
            return answer.status, answer.read().decode()
    except urllib.error.HTTPError as error:
        return error.code, ""


def main():
    turn_on_loopback()
    # A shell without job control has what it starts by & ignore the signal, and a program inherits that.
    signal.signal(signal.SIGINT, signal.default_int_handler)
    server = subprocess.Popen([*sys.argv[2:], "lhs", sys.argv[1]], stdout=subprocess.PIPE, text=True)
    try:
        address = re.search(r"http://127\.0\.0\.1:\d+/\S*", server.stdout.readline())[0]
        code, text = status(address)
        assert code == 200 and "</html>" in text, (code, text[:200])
        assert status(re.match(r"http://[^/]*/", address)[0])[0] == 404
        server.send_signal(signal.SIGINT)
        assert server.wait(20) == 130, server.returncode
    finally:
        server.kill()


main()
