"""How long replies took, over time, as a picture."""
from __future__ import annotations

import math

from load import Call

WIDTH, HEIGHT, LEFT, TOP, RIGHT, BOTTOM = 720, 320, 70, 40, 20, 45
DECADES = (0.01, 0.1, 1.0, 10.0, 100.0)


def drawn(calls: list[Call], killed: float) -> str:
    """A point for each call: when its client asked, and the seconds to its reply; and a line where the primary was killed."""
    ends = max(call.at + call.seconds for call in calls)
    low = max(mark for mark in DECADES if mark <= max(DECADES[0], min(call.seconds for call in calls)))
    high = min(mark for mark in DECADES if mark >= min(DECADES[-1], max(call.seconds for call in calls)))
    right, bottom = WIDTH - RIGHT, HEIGHT - BOTTOM

    def x(at: float) -> float:
        return LEFT + (right - LEFT) * at / ends

    def y(seconds: float) -> float:
        part = (math.log10(max(low, seconds)) - math.log10(low)) / max(1e-9, math.log10(high) - math.log10(low))
        return bottom - (bottom - TOP) * part

    lines = [f'<svg xmlns="http://www.w3.org/2000/svg" viewBox="0 0 {WIDTH} {HEIGHT}" font-family="sans-serif" font-size="13">',
             f'<rect width="{WIDTH}" height="{HEIGHT}" fill="white"/>',
             f'<text x="{LEFT}" y="22">Seconds to a reply, four clients and four replicas as processes</text>']
    for mark in [mark for mark in DECADES if low <= mark <= high]:
        lines += [f'<line x1="{LEFT}" y1="{y(mark):.1f}" x2="{right}" y2="{y(mark):.1f}" stroke="#ccc"/>',
                  f'<text x="{LEFT - 8}" y="{y(mark) + 4:.1f}" text-anchor="end">{mark:g} s</text>']
    step = max(1, round(ends / 8))
    for second in range(0, int(ends) + 1, step):
        lines.append(f'<text x="{x(second):.1f}" y="{bottom + 20}" text-anchor="middle">{second} s</text>')
    lines += [f'<line x1="{x(killed):.1f}" y1="{TOP}" x2="{x(killed):.1f}" y2="{bottom}" stroke="#c00" stroke-dasharray="4 3"/>',
              f'<text x="{x(killed) + 6:.1f}" y="{TOP + 12}" fill="#c00">the primary is killed</text>']
    lines += [f'<circle cx="{x(call.at):.1f}" cy="{y(call.seconds):.1f}" r="2.5" fill="#246"/>' for call in calls]
    return "\n".join([*lines, "</svg>"]) + "\n"
