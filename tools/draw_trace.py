#!/usr/bin/env -S python3 -B
"""Draws a trace of netgame as a space-time diagram: trace on standard input, SVG on standard output.

    netgame sim --trace < samples/lossy.script | tools/draw_trace.py > lossy.svg

Time goes down, an event is a row, and each node has a line. A packet leads from the row in which it was sent
to each row in which it was delivered; one that never was is broken off. The flags of a packet are no words of
a trace: they follow from what its sender met before, by docs/PROTOCOL.md. Lines of events that changed nothing
may be left out of the trace (silent, full, waiting, not playing)."""
import re
import sys
from svg import INK, LETTER, PALE, PAPER, Picture

ROW, LANE, GUTTER, STUB = 15, 200, 36, 80
PLAIN, SETUP, AGAIN, EXIT, BAD = '#2f6db5', '#2a8a3c', '#c8660a', '#9a3a8f', '#c8281e'
FLAGS = {PLAIN: '', SETUP: ' SETUP', AGAIN: ' RETRANSMIT', EXIT: ' EXIT'}
EVENT = re.compile(r'event (\d+) ((build|give|send|deliver|run|quit|stop) (\d+)(?: (.*))?): (.*)')
NODE = re.compile(r'node \d (.*?) (made \d+ ran \d+) got .*? demo \d+( stopped)?')
# The first words of the answers that end or stop a node.
LAST = ('quit', 'demo', 'inconsistent', 'stopped')
# Color, dashes, whether there is an arrowhead, a mark, words.
LEGEND = [
    (PLAIN, '', True, '', 'packet of commands'), (SETUP, '', True, '', 'SETUP: the choice of game'),
    (AGAIN, '', True, '', 'RETRANSMIT: asks again'), (EXIT, '', True, '', 'EXIT: its sender has ended'),
    (PLAIN, '5 3', True, '', 'delivered once more'), (PLAIN, '', False, 'lost', 'lost, dropped or refused'),
    (PAPER, '', False, 'gap', 'GAP: commands are missing'), (PAPER, '', False, 'built', 'built a command'),
    (INK, '1 4', False, '', 'does not play yet'), (PAPER, '', False, 'ran', 'ran a tic'),
    (PALE, '6 4', False, '', 'has ended'), (PAPER, '', False, 'quit', 'quit')]


class Node:
    """From which row on a node plays, has ended, has stopped; and whom it asks for commands again."""

    def __init__(self):
        self.since = self.ended = self.stopped = None
        self.wants = set()

    def flags(self, to):
        """The color that says which flags the packet has that it gives now."""
        if self.since is None:
            return SETUP
        if self.ended is not None:
            return EXIT
        return AGAIN if to in self.wants else PLAIN


def count_of(events):
    """How many nodes take part in the events."""
    valid = [event for event in events if event[2] != 'deliver' and event[5] != 'refused 1 no node']
    named = [event[3] for event in valid] + [event[4] for event in valid if event[2] == 'send']
    return 1 + max(map(int, ['1', *named]))


class Diagram:
    def __init__(self, events, ends):
        self.events, self.ends = events, ends
        self.nodes = [Node() for _ in range(len(ends) or count_of(events))]
        # Of each packet its sender, receiver, row and color, and how often it was delivered.
        self.packets, self.arrows, self.labels, self.marks = {}, [], [], []
        for row, (count, words, what, first, rest, answer) in enumerate(events):
            if what == 'deliver' and first in self.packets:
                node, label, color = self.delivered(row, first, answer)
            elif what == 'deliver' or int(first) >= len(self.nodes):
                node, label, color = None, f'{words}: {answer}', BAD
            elif answer.startswith('sent '):
                node, label, color = self.sent(row, int(first), int(rest), answer)
            else:
                node, label, color = self.acted(row, int(first), what, answer)
            self.labels.append((row, node, label, color, f'event {count} {words}: {answer}'))

    def sent(self, row, node, to, answer):
        color = self.nodes[node].flags(to)
        self.packets[answer[5:]] = [node, to, row, color, 0]
        return node, answer + FLAGS[color], color

    def delivered(self, row, number, answer):
        sender, to, since, color, times = self.packets[number]
        self.packets[number][4] += 1
        word = answer.split()[0]
        if word == 'started':
            self.nodes[to].since = row
        elif word == 'gap':
            self.nodes[to].wants.add(sender)
            self.marks.append((row, to, word))
        elif word in ('taken', 'left'):
            self.nodes[to].wants.discard(sender)
        lost = word in ('dropped', 'refused')
        self.arrows.append((sender, to, since, row, color, times, lost))
        return to, f'{number}: {"GAP" if word == "gap" else answer}', BAD if lost or word == 'gap' else INK

    def acted(self, row, node, what, answer):
        """A build, a run, a quit, a stop, or a send that gave no packet."""
        word = answer.split()[0]
        if word == 'refused':
            return node, f'{what} {answer}', BAD
        if word not in ('built', 'ran', *LAST):
            return node, answer, PALE
        if word == 'stopped':
            self.nodes[node].stopped = row
        elif word in LAST:
            self.nodes[node].ended = row
        self.marks.append((row, node, word))
        return node, answer, BAD if word in LAST[1:] else INK

    def lay_out(self):
        """Places the nodes by the longest words beside each."""
        def reach(node):
            longest = max([5, *(len(label) for _, at, label, _, _ in self.labels if at == node)])
            return round(longest * LETTER) + 24
        count = len(self.nodes)
        apart = max([LANE, *map(reach, [None, *range(1, count - 1)])])
        self.places = [GUTTER + reach(0) + apart * node for node in range(count)]
        self.width = max(self.places[-1] + reach(count - 1), 500)
        self.top = 9 * ROW

    def down(self, row):
        return self.top + ROW * (row + 1)

    def draw_legend(self, picture):
        for at, (color, dash, arrow, mark, words) in enumerate(LEGEND):
            x, y = 12 + (self.width // 2 - 12) * (at % 2), ROW * (1 + at // 2)
            picture.line(x, y, x + (26 if mark == 'lost' else 30), y, color, 1.5, dash, arrow)
            if mark:
                draw_mark(picture, x + (26 if mark == 'lost' else 15), y, mark)
            picture.text(x + 38, y + 4, words, font='sans-serif')

    def draw_nodes(self, picture):
        for number, (x, node) in enumerate(zip(self.places, self.nodes)):
            stop = self.down(len(self.events) if node.stopped is None else node.stopped)
            ended = stop if node.ended is None else self.down(node.ended)
            since = ended if node.since is None else self.down(node.since)
            picture.text(x, self.top - 6, f'node {number}', INK, 'middle', 13, 'sans-serif')
            picture.line(x, self.top, x, since, INK, 2, '1 4')
            picture.line(x, since, x, ended, INK, 2)
            picture.line(x, ended, x, stop, PALE, 2, '6 4')
        for x, words in zip(self.places, self.ends):
            for line, word in enumerate(words):
                picture.text(x, self.down(len(self.events) + 1 + line), (word or '').strip(), INK, 'middle')

    def draw_packets(self, picture):
        for node, to, row, color, times in self.packets.values():
            x, y, way = self.places[node], self.down(row), 1 if to > node else -1
            picture.dot(x, y, 3, color)
            if not times:
                picture.line(x, y, x + way * STUB, y + ROW, color, 1.5)
                draw_mark(picture, x + way * (STUB + 2), y + ROW, 'lost')
                if len(self.nodes) > 2:
                    side = 'start' if way > 0 else 'end'
                    picture.text(x + way * (STUB + 10), y + ROW + 4, f'to {to}', PALE, side)
        for sender, to, since, row, color, times, lost in self.arrows:
            x, y, dash = self.places[to] - (4 if to > sender else -4), self.down(row), '5 3' if times else ''
            picture.line(self.places[sender], self.down(since), x, y, color, 1.5, dash, not lost)
            if lost:
                draw_mark(picture, x, y, 'lost')

    def draw_labels(self, picture):
        for row, node, label, color, title in self.labels:
            x, side = (self.places[0] - 10, 'end') if node == 0 else (self.places[node or 0] + 10, 'start')
            picture.text(x, self.down(row) + 4, label, color, side, title=title)
            picture.text(GUTTER - 8, self.down(row) + 4, self.events[row][0], PALE, 'end', 9)

    def drawn(self):
        self.lay_out()
        picture = Picture()
        self.draw_legend(picture)
        self.draw_nodes(picture)
        self.draw_packets(picture)
        for row, node, mark in self.marks:
            draw_mark(picture, self.places[node], self.down(row), mark)
        self.draw_labels(picture)
        height = self.down(len(self.events) + (4 if self.ends else 0))
        return picture.whole(self.width, height, 'A trace of netgame')


def draw_mark(picture, x, y, mark):
    if mark == 'built':
        picture.dot(x, y, 4, INK)
        picture.dot(x, y, 2.5, PAPER)
    elif mark == 'ran':
        picture.path(f'M{x - 4} {y - 4}h8v8h-8z', fill=INK)
    elif mark == 'gap':
        picture.path(f'M{x} {y - 6}l6 6l-6 6l-6 -6z', BAD, fill=BAD)
    elif mark in ('lost', 'stopped'):
        picture.cross(x, y, BAD, 4 if mark == 'lost' else 6)
    else:
        picture.line(x - 8, y, x + 8, y, INK if mark == 'quit' else BAD, 3)


trace = sys.stdin.read().splitlines()
events = [found.groups() for found in map(EVENT.fullmatch, trace) if found]
if not events:
    sys.exit('draw_trace: no line of a trace on standard input')
sys.stdout.write(Diagram(events, [found.groups() for found in map(NODE.fullmatch, trace) if found]).drawn())
