#!/usr/bin/env -S python3 -B
"""Checks a map of crates, SVG in the file that is named, against crates.txt on standard input: whether it has
exactly the crates without those of tests, each in a box in a band; whether its arrows are the dependencies
between boxes that are not implied by others, and none leads down a band; whether two lines cross, or one passes
through a box. Prints what is wrong."""
import sys
import xml.etree.ElementTree as tree

SVG = '{http://www.w3.org/2000/svg}'
drawing = tree.parse(sys.argv[1]).getroot()
faults = []


def number(shape, *names):
    return [float(shape.get(name)) for name in names]


# The page is the first rectangle; boxes are as white as it, and bands are not.
page, *shapes = drawing.findall(SVG + 'rect')
frames = [(shape.get('fill') == page.get('fill'), *number(shape, 'x', 'y', 'width', 'height'))
    for shape in shapes]
bands = sorted(((x, y, x + w, y + h) for white, x, y, w, h in frames if not white), key=lambda it: -it[1])
boxes = [(x, y, x + w, y + h) for white, x, y, w, h in frames if white]


def inside(frame, x, y, slack=0):
    left, top, right, bottom = frame
    return left - slack <= x <= right + slack and top - slack <= y <= bottom + slack


home = {}
for text in drawing.iter(SVG + 'text'):
    if text.get('font-family') == 'monospace':
        around = [box for box in boxes if inside(box, *number(text, 'x', 'y'))]
        if len(around) != 1 or text.text in home:
            faults.append(f'{text.text} is not in one box, once')
        home.update((text.text, box) for box in around)
lines = (line.partition(':')[::2] for line in sys.stdin if not line.startswith('#'))
uses = {name.split()[0]: used.split() for name, used in lines if not name.split()[0].endswith('_tests')}
faults += [f'no crate {name}' for name in home.keys() - uses.keys()]
faults += [f'{name} is missing' for name in uses.keys() - home.keys()]
names = {box: ' '.join(name for name in home if home[name] == box) for box in boxes}
band = {box: next((k for k, it in enumerate(bands) if inside(it, *box[:2]) and inside(it, *box[2:])), None)
    for box in boxes}
faults += [f'{names[box]} is in no band' for box in boxes if band[box] is None]
if faults:
    sys.exit('\n'.join(sorted(faults)))

wanted = {(home[used], home[name]) for name in uses for used in uses[name] if used in uses}
wanted = {(low, high) for low, high in wanted if low != high}
reach = {box: {high for low, high in wanted if low == box} for box in boxes}
for _ in boxes:
    reach = {box: above.union(*(reach[high] for high in above)) for box, above in reach.items()}
wanted = {(low, high) for low, high in wanted
    if not any((low, other) in wanted and high in reach[other] for other in boxes)}

drawn, ways = set(), []
for path in drawing.findall(SVG + 'path'):
    steps = [float(word) for word in path.get('d').replace('M', ' ').replace('L', ' ').split()]
    points = list(zip(steps[::2], steps[1::2]))
    low, high = ([box for box in boxes if inside(box, *point, 1)] for point in (points[0], points[-1]))
    if len(low) != 1 or len(high) != 1:
        faults.append(f'an arrow from {points[0]} to {points[-1]} has an end at no box')
        continue
    drawn.add((low[0], high[0]))
    ways.append((low[0], high[0], list(zip(points, points[1:]))))
faults += [f'an arrow from {names[low]} to {names[high]} that is no dependency, or is implied'
    for low, high in drawn - wanted]
faults += [f'no arrow from {names[low]} to {names[high]}' for low, high in wanted - drawn]
faults += [f'{names[high]} uses {names[low]} of a higher band'
    for low, high in wanted if band[low] > band[high]]


def side(a, b, c):
    return (b[0] - a[0]) * (c[1] - a[1]) - (b[1] - a[1]) * (c[0] - a[0])


def cross(one, other):
    (a, b), (c, d) = one, other
    if any(max(a[k], b[k]) < min(c[k], d[k]) or max(c[k], d[k]) < min(a[k], b[k]) for k in (0, 1)):
        return False
    return side(a, b, c) * side(a, b, d) <= 0 and side(c, d, a) * side(c, d, b) <= 0


def crosses_any(steps, others):
    return any(cross(one, other) for one in steps for other in others)


for k, (low, high, steps) in enumerate(ways):
    for other_low, other_high, others in ways[:k]:
        if crosses_any(steps, others):
            faults.append(f'{names[low]} to {names[high]} crosses {names[other_low]} to {names[other_high]}')
    for box in boxes:
        left, top, right, bottom = box
        rim = [((left, top), (right, bottom)), ((left, bottom), (right, top))]
        if box not in (low, high) and crosses_any(steps, rim):
            faults.append(f'{names[low]} to {names[high]} passes through {names[box]}')
if faults:
    sys.exit('\n'.join(sorted(faults)))
