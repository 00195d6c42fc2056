#!/usr/bin/env python3
"""Writes documents into a folder: one of 300,000 objects in 1,000 groups, and three that are hostile."""
import sys

folder = sys.argv[1]


def write(name, parts):
    with open(f"{folder}/{name}.xml", "w", encoding="utf-8", newline="") as file:
        file.write("".join(parts))


def part(number):
    if number % 3 == 0:
        return f'<real name="r{number}" val="{number % 97}.{number % 10}5" unit="obix:units/fahrenheit"/>'
    if number % 3 == 1:
        return f'<str name="s{number}" val="caf&#xE9; &amp; bar &lt;{number}&gt;"/>'
    return f'<abstime name="a{number}" val="2026-01-05T08:{number % 60:02}:00.5Z"/>'


groups = []
for group in range(1000):
    groups.append(f'<obj name="g{group}">')
    groups.extend(part(number) for number in range(299))
    groups.append("</obj>")
write("points", ["<obj>"] + groups + ["</obj>"])
write("ints", ["<obj>"] + ["<int/>"] * 2_790_000 + ["</obj>"])
write("siblings", ["<obj>"] + [f'<int name="{number}"/>' for number in range(800_000)] + ["</obj>"])
write("comment", ["<!--"] + ["x" * 16_700_000] + ["--><obj/>"])
