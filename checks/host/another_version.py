#!/usr/bin/env python3
"""A host of another version: it answers each call with a hint that says so.

    checks/host/another_version.py PORT
"""

import socket
import sys

VERSION = 3  # the program's is 2
HINT, ANOTHER_VERSION = 4, 2

host = socket.socket(socket.AF_INET, socket.SOCK_DGRAM)
host.bind(("", int(sys.argv[1])))
while True:
    call, caller = host.recvfrom(2048)
    mark = call[12:28]
    host.sendto(b"\0\4zirmegat" + bytes([VERSION, HINT]) + mark + bytes([ANOTHER_VERSION]), caller)
