#!/usr/bin/env -S python3 -B
"""Draws the phases of a node: docs/PROTOCOL.md on standard input, SVG on standard output.

The arrows are the rows of the table there whose columns are From, To and When. Only the place of each phase
stands here."""
import sys
import textwrap
from svg import INK, PALE, Picture

WIDTH, HEIGHT = 840, 360
BOX, TALL, LINE = 150, 28, 14
# The middle of each phase.
PLACES = {
    'Listening': (190, 50), 'Gathering': (190, 310), 'Ended, before a game': (190, 180), 'Playing': (460, 180),
    'Ended, full': (742, 72), 'Ended, inconsistent': (742, 180), 'Ended, quit': (742, 288)}


def rows_of(lines):
    """The cells of the table, from the line of its head to the first that is none of its own."""
    at = lines.index('| From | To | When |') + 2
    while at < len(lines) and lines[at].startswith('|'):
        yield [cell.strip() for cell in lines[at].strip('|').split('|')]
        at += 1


def ends_of(one, other):
    """Where the arrow leaves a box and where it meets another: at their sides, or above one another."""
    (x1, y1), (x2, y2) = PLACES[one], PLACES[other]
    if x1 == x2:
        way = 1 if y2 > y1 else -1
        return x1, y1 + way * TALL // 2, x2, y2 - way * TALL // 2
    return x1 + BOX // 2, y1 + (y2 - y1) // 20, x2 - BOX // 2, y2 - (y2 - y1) // 20


picture = Picture()
picture.box(656, 20, 172, 310, PALE, 1, '4 3')
picture.text(742, 38, 'Ended, after a game', PALE, 'middle', font='sans-serif')
for before, after, when in rows_of(sys.stdin.read().splitlines()):
    if before:
        x1, y1, x2, y2 = ends_of(before, after)
    else:
        x2, y2 = PLACES[after][0] - BOX // 2, PLACES[after][1]
        x1, y1 = x2 - 85, y2
        picture.dot(x1, y1, 4, INK)
    picture.line(x1, y1, x2, y2, INK, 1.5, '', True)
    words = textwrap.wrap(when, 19)
    for line, word in enumerate(words):
        y = (y1 + y2) // 2 + 4 + LINE * line - LINE * (len(words) - 1) // 2
        if y1 == y2:
            y -= LINE * (len(words) + 1) // 2 - 3
        picture.text((x1 + x2) // 2, y, word, INK, 'middle', font='sans-serif')
for phase, (x, y) in PLACES.items():
    picture.box(x - BOX // 2, y - TALL // 2, BOX, TALL, INK, 1.5)
    picture.text(x, y + 4, phase, INK, 'middle', 12, 'sans-serif')
sys.stdout.write(picture.whole(WIDTH, HEIGHT, 'The phases of a node'))
