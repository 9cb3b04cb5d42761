#!/usr/bin/env python3
"""Writes raw frames that are like pictures taken by a camera, rows from the top, R, G, B of 16 bits, the higher byte first.

    bench/frames.py WIDTH HEIGHT [COUNT [SEED]] > FILE

A scene of smooth light, a horizon, discs with hard and soft edges, and patches of woven and of rough texture, which moves
a little from frame to frame, with grain of 1.5 % of the whole range that no two frames share. The same words give the
same bytes. It uses all processors.
"""
import array
import functools
import math
import multiprocessing
import random
import sys

GRAIN = 0.015 * 65535
TINTS = ((0.9, 0.55, 0.35), (0.3, 0.5, 0.85), (0.75, 0.75, 0.7), (0.25, 0.6, 0.3), (0.95, 0.9, 0.6))


class Disc:
    """A disc in units of the picture's height: where, how large, how soft its edge is, and its colour."""

    def __init__(self, chance, aspect):
        self.x, self.y = chance.uniform(0, aspect), chance.uniform(0, 1)
        self.radius = chance.uniform(0.03, 0.22)
        self.soft = chance.choice((0.0015, 0.0015, 0.01, 0.06))
        self.tint, self.light = chance.choice(TINTS), chance.uniform(0.25, 1)
        self.weave = chance.choice((0, 0, 40, 160))

    def cover(self, y, places, step):
        """How much of a row's pixels it covers, from the first of them on."""
        down = y - self.y
        reach = self.radius + self.soft
        if abs(down) >= reach:
            return 0, ()
        wide = math.sqrt(reach * reach - down * down)
        first = max(0, int((self.x - wide) / step))
        last = min(len(places), int((self.x + wide) / step) + 1)
        soft = 2 * self.soft
        down *= down
        covers = [min(1.0, max(0.0, (reach - math.sqrt((x - self.x) ** 2 + down)) / soft)) for x in places[first:last]]
        return first, covers

    def shades(self, y, places):
        """Its light at pixels of a row: even, or woven."""
        if not self.weave:
            return [self.light] * len(places)
        across = 0.2 * math.sin(self.weave * 2 * y)
        return [self.light * (0.75 + across * math.sin(self.weave * x)) for x in places]


def roughness(chance, count):
    """Noise in which near places are alike, for a row."""
    near, values = 0.0, []
    for step in (chance.gauss(0, 0.06) for _ in range(count)):
        near = 0.85 * near + step
        values.append(near)
    return values


def background(y, places, rough, horizon):
    """The light of a row: a sky above the horizon, rough ground below it."""
    if y < horizon:
        base = 0.35 + 0.5 * y
        return [base + 0.12 * math.sin(1.7 * x + 2 * y) for x in places], TINTS[1]
    base = 0.5 - 0.25 * (y - horizon)
    return [base + 0.3 * y * near for near in rough], TINTS[3]


def put_grain(samples, grains, chance):
    """Light to code values, with grain from a part of the table that starts anywhere."""
    start = chance.randrange(len(grains) - len(samples))
    return array.array("H", [0 if it < 0 else 65535 if it > 65535 else int(it)
                             for it in map(lambda light, grain: 65535 * light + grain, samples, grains[start:start + len(samples)])])


def frame(width, height, seed, number):
    """The bytes of a frame."""
    scene, chance = random.Random(seed), random.Random(seed * 1000003 + number)
    aspect, step = width / height, 1 / height
    discs = [Disc(scene, aspect) for _ in range(24)]
    for disc in discs:
        disc.x += number * scene.uniform(-0.004, 0.004)
    horizon = scene.uniform(0.45, 0.7)
    places = [x * step for x in range(width)]
    grains = [chance.gauss(0, GRAIN) for _ in range(64 * 1024 + width)]
    rows = []
    for row in range(height):
        y = row * step
        lights, tint = background(y, places, roughness(scene, width), horizon)
        planes = [[part * light for light in lights] for part in tint]
        for disc in discs:
            first, covers = disc.cover(y, places, step)
            if covers:
                part = slice(first, first + len(covers))
                shades = disc.shades(y, places[part])
                for plane, share in zip(planes, disc.tint):
                    plane[part] = [old + cover * (share * shade - old) for old, cover, shade in zip(plane[part], covers, shades)]
        samples = array.array("H", bytes(6 * width))
        for place, plane in enumerate(planes):
            samples[place::3] = put_grain(plane, grains, chance)
        if sys.byteorder == "little":
            samples.byteswap()
        rows.append(samples.tobytes())
    return b"".join(rows)


def main(width, height, count=1, seed=1):
    with multiprocessing.Pool() as pool:
        for made in pool.imap(functools.partial(frame, width, height, seed), range(count)):
            sys.stdout.buffer.write(made)


if __name__ == "__main__":
    if not 3 <= len(sys.argv) <= 5:
        sys.exit("usage: bench/frames.py WIDTH HEIGHT [COUNT [SEED]]")
    main(*map(int, sys.argv[1:]))
