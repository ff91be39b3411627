#!/usr/bin/env python3
"""Reads what `netgame host` or `join` printed, and works out by the thresholds of docs/USAGE.md whether such a
line carries a game of four. Fails where the lines of the verdict are others.

    verdict.py FILE
"""
import re
import sys

lines = open(sys.argv[1]).read().splitlines()
text = "\n".join(lines) + "\n"
tics, seconds, rate, clock = re.search(r"^tics (\d+) seconds ([\d.]+) rate ([\d.]+) of (\d+)$", text, re.M).groups()
gaps, longest = re.search(r"^gaps (\d+) longest (\d+)$", text, re.M).groups()
most = re.search(r"^keys half .* most (.*)$", text, re.M).group(1)
losses = re.findall(r"^player (\d) came \d+ lost \d+ late \d+ twice \d+ old \d+ loss ([\d.]+)$", text, re.M)
least = int(clock) * 690 // 70

lacks = []
if float(seconds) < 10:
    lacks = [f"lacks time: {seconds} seconds, at least 10"]
elif tics == "0":
    lacks = ["lacks tics: none was run"]
else:
    if round(float(rate) * 10) < least:
        lacks.append(f"lacks tics: {rate} of {least // 10}.{least % 10} a second")
    if (int(gaps) - 1) * 60 > float(seconds):
        lacks.append(f"lacks calm: gaps {gaps}, at most 1 a minute")
    if int(longest) > 1000:
        lacks.append(f"lacks calm: longest {longest} ms, at most 1000")
    if not most.isdigit() or int(most) > 250:
        lacks.append(f"lacks speed: {most} ms, at most 250")
    for player, loss in losses:
        if float(loss) > 15:
            lacks.append(f"lacks datagrams: player {player} lost {loss} %, at most 15")
first = "this line does not carry a game of four" if lacks else "this line carries a game of four"
wanted = [first] + lacks
if lines[-len(wanted):] != wanted:
    sys.exit(f"{sys.argv[1]}: {lines[-len(wanted):]} in place of {wanted}")
