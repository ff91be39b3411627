#!/usr/bin/env python3
"""A bad line between namespaces: every packet of IPv4 that comes over one of its interfaces goes to the
interface of its receiver, later, or is lost.

    relay.py DELAY_MS LOSS_PERCENT SEED INTERFACE=ADDRESS=MAC ..

INTERFACE is the relay's end of a veth pair; ADDRESS and MAC are those of the other end. It ends when it is
killed, and prints how many packets it carried and lost at each SIGUSR1.
"""
import heapq
import random
import select
import signal
import socket
import struct
import sys
import time

ETH_P_IP = 0x0800


def opened(name):
    line = socket.socket(socket.AF_PACKET, socket.SOCK_RAW, socket.htons(ETH_P_IP))
    line.bind((name, ETH_P_IP))
    line.setblocking(False)
    return line


def without_checksum(packet):
    """The packet without the checksum of UDP, which the sender's kernel leaves to the hardware."""
    header = (packet[0] & 15) * 4
    if packet[9] != 17 or len(packet) < header + 8:
        return packet
    return packet[:header + 6] + b"\0\0" + packet[header + 8:]


def main():
    delay, loss, seed = float(sys.argv[1]) / 1000, float(sys.argv[2]) / 100, int(sys.argv[3])
    chance = random.Random(seed)
    lines, ends = {}, {}
    for word in sys.argv[4:]:
        name, address, mac = word.split("=")
        line = opened(name)
        lines[line.fileno()] = line
        ends[socket.inet_aton(address)] = (line, bytes.fromhex(mac.replace(":", "")))
    counts = {"carried": 0, "lost": 0}
    signal.signal(signal.SIGUSR1, lambda *_: print(counts, flush=True))
    waiting, number = [], 0
    while True:
        pause = max(0.0, waiting[0][0] - time.monotonic()) if waiting else 1.0
        ready, _, _ = select.select(list(lines.values()), [], [], pause)
        now = time.monotonic()
        for line in ready:
            try:
                frame, about = line.recvfrom(2048)
            except BlockingIOError:
                continue
            if about[2] == socket.PACKET_OUTGOING:
                continue
            packet = frame[14:]
            if len(packet) < 20 or packet[16:20] not in ends:
                continue
            if chance.random() < loss:
                counts["lost"] += 1
                continue
            due = now + delay * chance.uniform(0.9, 1.1)
            number += 1
            heapq.heappush(waiting, (due, number, packet[16:20], without_checksum(packet)))
        while waiting and waiting[0][0] <= now:
            _, _, to, packet = heapq.heappop(waiting)
            line, mac = ends[to]
            frame = mac + b"\2\0\0\0\0\1" + struct.pack("!H", ETH_P_IP) + packet
            try:
                line.send(frame)
                counts["carried"] += 1
            except OSError:
                counts["lost"] += 1


main()
