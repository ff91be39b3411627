#!/usr/bin/env python3
"""A bad line on 127.0.0.1: line.py PORT HOSTPORT LOSS REPEAT MIN_MS MAX_MS [MORE ..] SEED

Clients send to PORT, and the host at HOSTPORT sees each at a port of its own, to which other clients may send
too: so each way between two players passes once, and it serves sessions as well as the engine's own client and
server. LOSS and REPEAT are percent; each datagram is delayed by a time drawn evenly from MIN_MS to MAX_MS, so a
wide range reorders. MORE is one of these:

  PAIR_LOSS PAIR_MIN PAIR_MAX AFTER   between the first two clients the line is so, once AFTER seconds are over
  UPLINK HOSTS                        each client's uplink carries so many kbit/s, the host's HOSTS; 0: any number

What would wait in an uplink for more than 200 ms is dropped. Told to end (SIGTERM) it prints what it did, and
how many bytes came from the one who sent most."""
import heapq, random, select, signal, socket, sys, time
port, host = map(int, sys.argv[1:3])
loss, repeat, low, high, *more = map(float, sys.argv[3:-1])
pair, uplinks = (more, ()) if len(more) == 4 else ((), more)
draw = random.Random(int(sys.argv[-1]))
began = time.monotonic()

def open_port(number):
    s = socket.socket(socket.AF_INET, socket.SOCK_DGRAM)
    s.setsockopt(socket.SOL_SOCKET, socket.SO_RCVBUF, 1 << 20)
    s.bind(('127.0.0.1', number))
    s.setblocking(False)
    return s

front = open_port(port)
sides = {}     # a client's address: the socket by which others see it
owners = {}    # and back
free = {}      # when an address's uplink has sent all that waits there
sent = {}      # by an address, in bytes
counts = dict(came=0, full=0, lost=0, repeated=0, gave=0, bytes=0)
QUEUE, HEADERS = .2, 28   # as in bindings/lines: seconds that a datagram waits at most; the bytes of UDP and IP

def side_of(address):
    if address not in sides:
        sides[address] = open_port(0)
        owners[sides[address]] = address
    return sides[address]

def route(s, address):
    """By which socket, and to whom."""
    if s is front:
        return side_of(address), ('127.0.0.1', host)
    if address == ('127.0.0.1', host):
        return front, owners[s]
    return side_of(address), owners[s]

def line_of(one, other, now):
    """How many percent are lost between two addresses, and the least and the longest delay."""
    if pair and now - began >= pair[3] and {one, other} == set(list(sides)[:2]):
        return pair[:3]
    return loss, low, high

def leaves(address, length, now):
    """When a datagram has left the uplink of its sender, or None if that is full."""
    rate = uplinks and uplinks[address == ('127.0.0.1', host)]
    if not rate:
        return now
    begins = max(now, free.get(address, now))
    if begins - now > QUEUE:
        return None
    free[address] = begins + (length + HEADERS) * 8 / rate / 1000
    return free[address]

heap, serial, going = [], 0, True
def stop(*_):
    global going
    going = False
signal.signal(signal.SIGTERM, stop)
while going:
    wait = max(0.0, heap[0][0] - time.monotonic()) if heap else 0.2
    ready = select.select([front, *owners], [], [], min(wait, 0.2))[0]
    now = time.monotonic()
    for s in ready:
        while True:
            try:
                data, address = s.recvfrom(4096)
            except ConnectionRefusedError:
                continue
            except BlockingIOError:
                break
            counts['came'] += 1
            counts['bytes'] += len(data)
            sent[address] = sent.get(address, 0) + len(data)
            out, to = route(s, address)
            left = leaves(address, len(data), now)
            if left is None:
                counts['full'] += 1
                continue
            lost, least, longest = line_of(address, to, now)
            if draw.random() * 100 < lost:
                counts['lost'] += 1
                continue
            copies = 1 + (draw.random() * 100 < repeat)
            counts['repeated'] += copies - 1
            for _ in range(copies):
                serial += 1
                heapq.heappush(heap, (left + draw.uniform(least, longest) / 1000, serial, out, to, data))
    now = time.monotonic()
    while heap and heap[0][0] <= now:
        _, _, out, to, data = heapq.heappop(heap)
        try:
            out.sendto(data, to)
            counts['gave'] += 1
        except OSError:
            pass
print('line', counts, 'most', max(sent.values(), default=0), flush=True)
