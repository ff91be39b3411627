#!/usr/bin/env -S python3 -B
"""Draws the map of crates: crates.txt on standard input, SVG on standard output.

Three bands are the three layers, from below. An arrow leads from a box to one whose crates use it; the arrows
that follow from others are left out. A box that no other uses has a thick rim. Crates of tests are left out.
Where a crate stands is said in PLACES; a crate that is not there is an error."""
import sys
from svg import INK, LETTER, PALE, Picture

# The layers from below: name, what is in it, how many rows, color.
LAYERS = [
    ('bytes', ['what is sent', 'and kept'], 3, '#f1f4f9'),
    ('machine', ['the game in', 'whole numbers,', 'and a node', 'that follows it'], 3, '#f6f1e6'),
    ('promise', ['games agree:', 'for engines,', 'on networks,', 'in a program'], 4, '#ecf4ec'),
]
# The boxes: layer, its row in it from below, middle, and the lines of crates in the box.
PLACES = [
    ('bytes', 0, 315, [['dn_tic']]),
    ('bytes', 0, 412, [['dn_packet']]),
    ('bytes', 0, 574, [['dn_seal']]),
    ('bytes', 1, 248, [['dn_ring']]),
    ('bytes', 1, 355, [['dn_setup']]),
    ('bytes', 2, 291, [['dn_demo']]),
    ('bytes', 2, 384, [['dn_world']]),
    ('bytes', 2, 686, [['dn_measure']]),
    ('machine', 0, 345, [['dn_machine']]),
    ('machine', 0, 442, [['dn_remain']]),
    ('machine', 1, 294, [['dn_lockstep']]),
    ('machine', 1, 430, [['dn_survivor']]),
    ('machine', 2, 290, [['dn_node']]),
    ('promise', 0, 602, [['dn_link'], ['dn_open']]),
    ('promise', 1, 375, [['dn_game']]),
    ('promise', 1, 480, [['dn_link_game']]),
    ('promise', 2, 508, [['zirmegat']]),
    ('promise', 2, 602, [['dn_session']]),
    ('promise', 3, 262, [['dn_netgame', 'dn_inspect', 'dn_program', 'netgame']]),
    ('promise', 3, 680, [['dn_host']]),
]
WIDTH, RISE, LINE, MARGIN = 740, 48, 17, 10


def read(lines):
    """The crates that each crate uses, without those of tests."""
    words = [line.replace(':', ' : ').split() for line in lines if not line.startswith('#')]
    uses = {line[0]: line[line.index(':') + 1:] for line in words if not line[0].endswith('_tests')}
    return {name: [used for used in all_used if used in uses] for name, all_used in uses.items()}


class Box:
    def __init__(self, layer, row, middle, lines, uses):
        at = [name for name, *_ in LAYERS].index(layer)
        self.row, self.middle = row + sum(count for _, _, count, _ in LAYERS[:at]), middle
        self.lines = [kept for line in lines if (kept := [name for name in line if name in uses])]
        self.names = [name for line in self.lines for name in line]
        self.half = max((sum(len(name) * LETTER + 16 for name in line) / 2 for line in self.lines), default=0)
        self.down = 0

    @property
    def rise(self):
        return (LINE * len(self.lines) + 5) / 2


def arrows(boxes, uses):
    """From which box to which an arrow leads: those that do not follow from others."""
    home = {name: box for box in boxes for name in box.names}
    below = {box: {home[used] for name in box.names for used in uses[name]} - {box} for box in boxes}

    def all_below(box):
        return below[box].union(*map(all_below, below[box]))
    return [(used, box) for box in boxes for used in boxes
        if used in below[box] and not any(used in all_below(other) for other in below[box])]


def ends(boxes, ways):
    """The two ends of each arrow: on facing sides, and beside each other in the order of where they go."""
    found = {}
    for box in boxes:
        for side, own in ((1, [way for way in ways if way[0] is box and way[1].row != box.row]),
                          (-1, [way for way in ways if way[1] is box and way[0].row != box.row])):
            own.sort(key=lambda way: slope(way, side))
            for index, way in enumerate(own):
                shift = min(26, 1.4 * box.half / len(own)) * (index - (len(own) - 1) / 2)
                found[way, side] = (round(box.middle + shift), round(box.down - side * box.rise))
    for used, box in ways:
        if used.row == box.row:
            side = 1 if used.middle < box.middle else -1
            found[(used, box), 1] = (round(used.middle + side * used.half), round(used.down))
            found[(used, box), -1] = (round(box.middle - side * box.half), round(box.down))
    return found


def slope(way, side):
    used, box = way
    return side * (box.middle - used.middle) / (used.down - box.down)


def drawn(uses):
    boxes = [box for box in (Box(*place, uses) for place in PLACES) if box.names]
    placed = [name for box in boxes for name in box.names]
    if missing := set(uses).difference(placed):
        raise SystemExit(f'draw_crates: no place in PLACES for {", ".join(sorted(missing))}')
    rows = sum(count for _, _, count, _ in LAYERS)
    height = RISE * rows + 2 * MARGIN
    for box in boxes:
        box.down = height - MARGIN - RISE * (box.row + 0.5)
    picture = Picture()
    bottom = height - MARGIN
    for name, words, count, color in LAYERS:
        top = bottom - RISE * count
        picture.box(MARGIN, top + 2, WIDTH - 2 * MARGIN, RISE * count - 4, color, 1, '', color)
        picture.text(MARGIN + 12, top + 26, name, INK, size=16, font='sans-serif')
        for index, line in enumerate(words):
            picture.text(MARGIN + 12, top + 46 + 15 * index, line, PALE, font='sans-serif')
        bottom = top
    ways = arrows(boxes, uses)
    found = ends(boxes, ways)
    for way in ways:
        (x, y), (to_x, to_y) = found[way, 1], found[way, -1]
        picture.path(f'M{x} {y}L{to_x} {to_y}', PALE, 1.2, '', True)
    for box in boxes:
        used = any(box is way[0] for way in ways)
        left, top = round(box.middle - box.half), round(box.down - box.rise)
        picture.box(left, top, round(2 * box.half), round(2 * box.rise), INK, 1 if used else 2.5)
        for index, line in enumerate(box.lines):
            at = box.middle - sum(len(name) * LETTER + 16 for name in line) / 2
            for name in line:
                wide = len(name) * LETTER + 16
                picture.text(round(at + wide / 2), top + 15 + LINE * index, name, INK, 'middle')
                at += wide
    return picture.whole(WIDTH, height, 'The map of crates in three layers')


if __name__ == '__main__':
    listed = sys.stdin.read().splitlines()
    if not listed:
        sys.exit('draw_crates: no crates on standard input')
    sys.stdout.write(drawn(read(listed)))
