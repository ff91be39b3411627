#!/usr/bin/env python3
"""Forwards datagrams between a joiner on this machine and its host, as a router does.

    forward.py PORT HOST HOSTPORT move SECONDS     all; after so many seconds from another port
    forward.py PORT HOST HOSTPORT greetings        greetings, and nothing of the game

The joiner calls 127.0.0.1 at PORT. It ends when it is killed.
"""
import select
import socket
import sys
import time

GREETING = 4  # the second byte of one


def opened(address):
    line = socket.socket(socket.AF_INET, socket.SOCK_DGRAM)
    line.bind(address)
    return line


def main():
    host, how = (sys.argv[2], int(sys.argv[3])), sys.argv[4]
    near, far, joiner = opened(("127.0.0.1", int(sys.argv[1]))), opened(("", 0)), None
    moves = time.monotonic() + float(sys.argv[5]) if how == "move" else None
    while True:
        if moves and time.monotonic() > moves:
            far, moves = opened(("", 0)), None
        ready, _, _ = select.select([near, far], [], [], 0.1)
        for line in ready:
            bytes_, sender = line.recvfrom(2048)
            joiner = sender if line is near else joiner
            if how == "move" or bytes_[1:2] == bytes([GREETING]):
                (far if line is near else near).sendto(bytes_, host if line is near else joiner)


main()
