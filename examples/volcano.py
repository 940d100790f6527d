#!/usr/bin/env python3
"""Makes a field of 64 by 64: a volcano with a crater, seen with noise and without its turns.

    python3 examples/volcano.py > examples/volcano.txt
    python3 examples/volcano.py --heights      the true heights, row by row

A turn is 1,000. The mountain is a cone with a crater in its top, in steps well below half a turn. Its right side is torn: at the tear
the ground behind it is lifted by more than half a turn, and sinks back to the cone further right, so no step but those over the tear
is more than half a turn. Scratches, rows of three steps that are more than half a turn, stand on a wide way from one end of the tear
to the other, with gaps of two places between them. All places have a little noise, from a generator of its own, so that every run
makes the same field.

The tear and each scratch end in two squares that are off, one either way. Joined to the nearest, squares are joined over the gaps
and not along the scratches, so the cut goes the wide way and raises all that lies between it and the tear by a turn. Steps over the
tear and the scratches have a low price, as where a picture is torn one trusts it less, and the least turns cut there.
"""
import math
import sys

SIDE = 64
TURN = 1000
LEFT, TOP, RIGHT, BOTTOM = 44, 20, 58, 44  # the tear is at LEFT, the way round goes by RIGHT
SCRATCH = 340
LONG, GAP = 3, 2


class Noise:
    """Whole numbers from a linear congruence, the same on every machine."""

    def __init__(self, seed):
        self.state = seed

    def between(self, low, high):
        self.state = (self.state * 6364136223846793005 + 1442695040888963407) % 2**64
        return low + (self.state >> 33) % (high - low + 1)


def mountain(x, y):
    """The height of the mountain itself."""
    d = math.hypot(x - 30, y - 32)
    return round(100 + max(0, 3300 - 100 * d) - max(0, 1400 - 280 * d))


def lifted(x, y):
    """By how much the ground behind the tear is lifted."""
    if x <= LEFT or not TOP <= y <= BOTTOM:
        return 0
    ends = min(1, (y - TOP + 1) / 4, (BOTTOM - y + 1) / 4)
    return round(840 * ends * max(0, 1 - (x - LEFT - 1) / 9))


def scratches():
    """The steps on the way round: a place, the place over the step, and which of them is higher."""
    way = []
    way += [((x, TOP - 2), (x, TOP - 3)) for x in range(LEFT + 2, RIGHT)]
    way += [((RIGHT, y), (RIGHT + 1, y)) for y in range(TOP - 2, BOTTOM + 3)]
    way += [((x, BOTTOM + 2), (x, BOTTOM + 3)) for x in range(RIGHT - 1, LEFT + 1, -1)]
    return [step for i, step in enumerate(way) if i % (LONG + GAP) < LONG]


def field():
    """The true heights, and the prices of the steps to the right and down."""
    noise = Noise(7)
    heights = [[mountain(x, y) + lifted(x, y) + noise.between(-12, 12) for x in range(SIDE)] for y in range(SIDE)]
    right = [[20] * SIDE for _ in range(SIDE)]
    below = [[20] * SIDE for _ in range(SIDE)]
    for y in range(TOP - 1, BOTTOM + 2):
        right[y][LEFT] = 1
    for (ax, ay), (bx, by) in scratches():
        heights[ay][ax] += SCRATCH
        heights[by][bx] -= SCRATCH
        (right if ay == by else below)[min(ay, by)][min(ax, bx)] = 1
    return heights, right, below


def main():
    heights, right, below = field()
    if "--heights" in sys.argv:
        for row in heights:
            print(*row)
        return
    print("# A volcano with a crater, 64 by 64, made by examples/volcano.py.")
    print("turn", TURN)
    for row in heights:
        print(*(h % TURN for h in row))
    for name, rows in (("to the right", right), ("down", below)):
        print("# prices of the steps", name)
        for row in rows:
            print(*row)


if __name__ == "__main__":
    main()
