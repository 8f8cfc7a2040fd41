#!/usr/bin/env python3
"""Writes docs/band.svg: the band of M12 and M13, and that of M1 and M2 asked two-sided, from the paths of document 01. python3 docs/band.py >docs/band.svg"""
from fractions import Fraction as F

K = 6000  # the puck's half height


def path(strength, target, speed, t):
    """the advice rule from height 0: an arc up to G/strength, then the straight"""
    missing = max(0, target - speed)
    if t * strength < missing:
        return speed * t + F(strength) * t * t / 2
    return target * t - F(missing * missing, 2 * strength)


def panel(x0, title, lower, upper, seconds, low, high, window, intruders):
    """one drawing, 400 wide and 330 high; lower and upper are (strength, target), the ownship starts in level flight"""
    width, height, top = 400, 330, 50

    def at(t, y):
        return f"{x0 + float(t) * width / seconds:.1f},{top + float(high - y) * height / (high - low):.1f}"

    times = [F(i * seconds, 120) for i in range(121)]
    f = [(t, path(*lower, 0, t)) for t in times]
    j = [(t, path(*upper, 0, t)) for t in times]
    inside = [t for t in times if window[0] <= t <= window[1]]
    parts = []

    def polygon(ts, style):
        edge = [at(t, path(*lower, 0, t) - K) for t in ts] + [at(t, path(*upper, 0, t) + K) for t in reversed(ts)]
        parts.append(f'<polygon points="{" ".join(edge)}" {style}/>')

    parts.append(f'<clipPath id="c{x0}"><rect x="{x0}" y="{top}" width="{width}" height="{height}"/></clipPath>')
    parts.append(f'<text x="{x0}" y="30" font-size="15">{title}</text>')
    parts.append(f'<g clip-path="url(#c{x0})">')
    polygon(times, 'fill="#dde6f0"')
    polygon(inside, 'fill="#9fb8d6"')
    for curve, colour in ((f, "#20508a"), (j, "#8a2050")):
        parts.append(f'<polyline points="{" ".join(at(*p) for p in curve)}" fill="none" stroke="{colour}" stroke-width="2"/>')
    for h, colour, words in intruders:
        a, b = at(0, h).split(","), at(seconds, h).split(",")
        parts.append(f'<line x1="{a[0]}" y1="{a[1]}" x2="{b[0]}" y2="{b[1]}" stroke="{colour}" stroke-dasharray="6 4"/>')
        parts.append(f'<text x="{x0 + 6}" y="{float(a[1]) + (15 if "below" in words or "edge" in words else -5):.1f}" font-size="12" fill="{colour}">{words}</text>')
    parts.append("</g>")
    parts.append(f'<rect x="{x0}" y="{top}" width="{width}" height="{height}" fill="none" stroke="#444"/>')
    for t in range(0, seconds + 1, seconds // 4):
        parts.append(f'<text x="{at(t, low).split(",")[0]}" y="{top + height + 16}" font-size="12" text-anchor="middle">{t} s</text>')
    return "\n".join(parts)


print('<svg xmlns="http://www.w3.org/2000/svg" viewBox="0 0 900 430" font-family="sans-serif">')
print('<rect width="900" height="430" fill="white"/>')
print(panel(20, "M12, M13: both targets 0, the window all time", (500, 0), (500, 0), 12, -9000, 9000, (0, 12),
            [(6001, "#207020", "M12: 6,001, outside"), (6000, "#a02020", "M13: 6,000, on the edge")]))
print(panel(470, "M1, M2 two-sided: the window from 27 to 33 s", (500, 1500), (600, 2500), 36, -10000, 100000, (27, 33),
            [(83292, "#207020", "83,292: outside, clear on the upper side"), (50000, "#a02020", "50,000: inside"), (32249, "#207020", "32,249: outside, below: clear on the lower side")]))
print('<text x="20" y="418" font-size="12">Blue line: the lower path f. Red line: the upper path j. Light: the band, from f − k to j + k; dark: at the times of the window.</text>')
print("</svg>")
