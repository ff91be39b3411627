#!/usr/bin/env -S python3 -B
"""Draws two demos of one game of two, a strip each: the files that `netgame rows` printed of them, SVG on standard
output. A bar is a player's command in a tic: its height how far the player goes, its colour what it presses."""
import re
import sys
from svg import INK, PALE, Picture

LEFT, STEP, TALL, GAP = 8, 7, 26, 34
COLOURS = ['#b8c4d0', '#c0392b', '#2471a3', '#7d3c98']   # nothing, attack, use, both


def moves_of(name):
    """Each tic's (forward, buttons) of player 0 and of player 1."""
    found = re.findall(r'^tic (\d+) player (\d) forward (-?\d+) side -?\d+ turn -?\d+ buttons (\d+)$',
        open(name).read(), re.M)
    tics = {}
    for tic, player, forward, buttons in found:
        tics.setdefault(int(tic), {})[int(player)] = int(forward), int(buttons)
    return [tics[tic] for tic in sorted(tics)]


def strip(picture, top, moves, title):
    picture.text(LEFT, top - 6, title, INK, font='sans-serif')
    for player in 0, 1:
        middle = top + TALL // 2 + player * TALL
        for tic, row in enumerate(moves):
            forward, buttons = row[player]
            high = max(abs(forward) * (TALL // 2 - 2) // 50, 1)
            y = middle - high if forward >= 0 else middle
            picture.path(f'M{LEFT + tic * STEP} {y}h{STEP - 1}v{high}h-{STEP - 1}z', COLOURS[buttons & 3], 0,
                fill=COLOURS[buttons & 3])
        picture.line(LEFT, middle, LEFT + len(moves) * STEP, middle, PALE, .5)


demos = [moves_of(name) for name in sys.argv[1:3]]
picture = Picture()
for number, moves in enumerate(demos):
    strip(picture, 24 + number * (2 * TALL + GAP), moves, f'the demo of player {number}: {len(moves)} tics')
width, height = 2 * LEFT + max(map(len, demos)) * STEP, 24 + 2 * (2 * TALL + GAP) - GAP + 8
sys.stdout.write(picture.whole(width, height, 'Two demos of one game over a bad line'))
