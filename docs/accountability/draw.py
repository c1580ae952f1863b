#!/usr/bin/env python3
"""Draws two quorums of four members and those that signed both.

Usage: docs/accountability/draw.py writes quorums.svg beside it.
"""
import pathlib

WIDTH, HEIGHT, STEP, LEFT, RADIUS, MIDDLE = 640, 250, 130, 125, 30, 125
MEMBERS, FIRST, SECOND = range(4), (0, 1, 2), (1, 2, 3)


def text(x, y, words, size=15):
    return f'<text x="{x}" y="{y}" font-size="{size}" text-anchor="middle">{words}</text>'


def place(member):
    """Returns where a member's circle is, from the left."""
    return LEFT + STEP * member


def bracket(members, edge, arm, words, words_at):
    """Returns a bracket over these members: its line is at edge, and its arms go from there by arm."""
    left, right = place(members[0]) - RADIUS, place(members[-1]) + RADIUS
    path = f'<path d="M{left} {edge + arm} V{edge} H{right} V{edge + arm}" fill="none" stroke="#444" stroke-width="2"/>'
    return path + text((left + right) / 2, words_at, words)


def member(index):
    """Returns a member's circle, which is shaded where the member signed both."""
    shade = "#f2b56b" if index in FIRST and index in SECOND else "#ffffff"
    circle = f'<circle cx="{place(index)}" cy="{MIDDLE}" r="{RADIUS}" fill="{shade}" stroke="#222" stroke-width="2"/>'
    return circle + text(place(index), MIDDLE + 7, index, 20)


def drawing():
    parts = [
        f'<svg xmlns="http://www.w3.org/2000/svg" width="{WIDTH}" height="{HEIGHT}" viewBox="0 0 {WIDTH} {HEIGHT}"',
        ' font-family="sans-serif" fill="#222">',
        "<title>Two quorums of four members share two of them</title>",
        f'<rect width="{WIDTH}" height="{HEIGHT}" fill="#ffffff"/>',
        bracket(FIRST, 62, 22, "certificate for A, view 7", 50),
        *map(member, MEMBERS),
        bracket(SECOND, 188, -22, "certificate for B, view 7", 210),
        text(WIDTH / 2, HEIGHT - 12, "1 and 2 signed both: at most one can be excused, f = 1", 15),
        "</svg>",
    ]
    return "\n".join(parts) + "\n"


if __name__ == "__main__":
    pathlib.Path(__file__).with_name("quorums.svg").write_text(drawing())
