#!/usr/bin/env python3
"""compare.py OUT PLAYERS [GONE ..]: what the players of a game left in OUT. Their demos must begin each other,
and their worlds be the same after each tic that both ran; who is GONE has no demo. Demos of an engine's own
form, which are not of version 111, have to be there, and are not compared. Prints how far they came; status 1
where something differs."""
import os, sys
out, players, gone = sys.argv[1], int(sys.argv[2]), set(map(int, sys.argv[3:]))
wrong, own = [], []
OWN_FORMS = 202, 203, 221   # Boom, MBF, MBF21

def read(name):
    path = os.path.join(out, name)
    return open(path, 'rb').read() if os.path.exists(path) else b''

demos, worlds = {}, {}
for p in range(players):
    demo = read(f'p{p}.lmp')
    if len(demo) > 13 and demo[0] in OWN_FORMS:
        own.append(p)
    elif len(demo) > 13:
        if demo[0] != 111 or demo[8] != p or demo[-1] != 0x80 or (len(demo) - 14) % (5 * sum(demo[9:13])):
            wrong.append(f'the demo of {p} is none')
        demos[p] = demo[:8] + demo[9:-1]
    elif p not in gone:
        wrong.append(f'no demo of {p}')
    lines = read(f'p{p}.log').split(b'\n')[:-1]
    if lines:
        worlds[p] = lines
    said = read(f'p{p}.out')
    if b'worlds differ' in said:
        wrong.append(f'{p}: the worlds differ')
for what, things in ('demos', demos), ('worlds', worlds):
    for a in things:
        for b in things:
            if a >= b:
                continue
            least = min(len(things[a]), len(things[b]))
            if things[a][:least] != things[b][:least]:
                at = next(k for k in range(least) if things[a][k] != things[b][k])
                wrong.append(f'{what} of {a} and {b} differ at {at}')
                if what == 'worlds':
                    wrong += [things[a][at].decode(), things[b][at].decode()]
seats = {p: sum(read(f'p{p}.lmp')[9:13]) for p in demos}
tics = {p: len(w) for p, w in worlds.items()}
recorded = {p: (len(d) - 12) // (5 * seats[p]) for p, d in demos.items()}
print('FAILED' if wrong else 'equal:', os.path.basename(out), 'tics run', tics, 'recorded', recorded,
    *(['in its own form', own] if own else []))
for line in wrong:
    print('  ', line)
sys.exit(bool(wrong))
