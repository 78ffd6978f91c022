"""What the example shows: a view through a window of two panes, of a keep above a lake at night.

Backgrounds are functions of a pixel of the picture that give a colour index. Sprites are drawn as text,
in which "." is transparent and a hexadecimal digit an index. Colours are channels of 0 to 31.
"""
import math

LAKE = 152  # the first row of the lake, which mirrors what is above it
SILL = 200  # the first row of the caption
MOON = (203, 50, 22)
BAYER = ((0, 8, 2, 10), (12, 4, 14, 6), (3, 11, 1, 9), (15, 7, 13, 5))

LETTERS = {
    "H": "#...# #...# #...# ##### #...# #...# #...#",
    "A": ".###. #...# #...# ##### #...# #...# #...#",
    "R": "####. #...# #...# ####. #.#.. #..#. #...#",
    "E": "##### #.... #.... ####. #.... #.... #####",
    "V": "#...# #...# #...# #...# .#.#. .#.#. ..#..",
    "O": ".###. #...# #...# #...# #...# #...# .###.",
    "N": "#...# ##..# ##..# #.#.# #..## #..## #...#",
    "P": "####. #...# #...# ####. #.... #.... #....",
    "L": "#.... #.... #.... #.... #.... #.... #####",
    "T": "##### ..#.. ..#.. ..#.. ..#.. ..#.. ..#..",
    "1": ".#... ##... .#... .#... .#... .#... ###..",
    " ": "..... ..... ..... ..... ..... ..... .....",
}

BAT_UP = "1......1 21....12 22.11.22 12222221 .122221. ..1331.. ...11... ........"
BAT_DOWN = "........ ...11... .111111. 12233221 22.22.22 2...1..2 1......1 ........"
LANTERN = "..1111.. .144441. .145541. .155551. .145541. .134431. ..1331.. ...22..."

BOAT = """
.........22.....................
........2442....................
........2552....................
.........22.........11..........
.........1.........1881.........
.........1........188881........
.........1........187781........
.........1........187781........
.........1.........1881.........
.........1........199991........
.........1.......19999991.......
.........1......1999999991......
.........1.....199999aa991......
.........111111119999aa9991.....
.........1....19999999a99991....
..1......1....1999999aa99991....
.131.....1....199999aaaa9991....
1331.....1...1999999aaaa99991...
13b31....1...1999999aaaaa9991..1
.1bb31...1...19999999aaaa9991.13
.13bb3111111111111111111111111b3
..13bbbbbbbbbbbbbbbbbbbbbbbbbbb1
..133bb33bbb33bbb33bbb33bbb33b1.
...1333333333333333333333333331.
....133c33c33c33c33c33c33c3331..
.....13333333333333333333331....
......11333333333333333311......
.........11111111111111.........
"""


def mix(a, b, t):
    return tuple(p + (q - p) * t for p, q in zip(a, b))


def ramp(stops, n):
    """n colours from the first stop to the last."""
    places = [i * (len(stops) - 1) / (n - 1) for i in range(n)]
    lows = [min(int(p), len(stops) - 2) for p in places]
    return [mix(stops[k], stops[k + 1], p - k) for p, k in zip(places, lows)]


# The colours of BG2: dusk from index 1, the moon from 9, snow 12, mountains 13 and 14, hills 15.
SKY = ramp([(1, 2, 8), (4, 4, 14), (12, 6, 18), (22, 10, 17), (30, 18, 14)], 8)
FAR = SKY + [(31, 30, 26), (27, 25, 21), (23, 21, 19), (26, 27, 31), (17, 11, 19), (9, 6, 15), (4, 4, 10)]
# The colours of the keep: outline 1, stone from 2, roofs from 7, lights 10 and 11, flags 12, rock from 13.
STONE = [(1, 1, 4)] + ramp([(3, 3, 8), (8, 8, 15), (16, 15, 21)], 5)
STONE += [(7, 2, 7), (12, 4, 8), (19, 8, 9), (31, 27, 11), (29, 18, 5), (27, 5, 6), (2, 3, 5), (4, 5, 7), (8, 8, 9)]
REEDS = ramp([(0, 1, 2), (3, 6, 4), (9, 13, 6)], 15)
BACKGROUNDS = {2: FAR, 4: STONE, 6: REEDS}
MIRRORED = {3: FAR, 5: STONE}
VEILS = [
    [(0, 0, 0), (29, 24, 13), (14, 10, 5)],  # frame, letters and their shade
    [(8, 12, 22), (5, 8, 17), (31, 30, 22)],  # water
    [(19, 18, 25), (24, 21, 25), (28, 24, 24)],  # mist
]
BASKET = [(14, 8, 4), (7, 4, 3)]
BOATMAN = [(2, 2, 4), (31, 24, 9), (10, 5, 4), (31, 29, 17), (31, 31, 27), (0, 0, 0), (27, 19, 14),
           (12, 4, 5), (20, 5, 7), (12, 3, 6), (19, 11, 6), (28, 20, 9)]
LAMPLIGHT = [(6, 2, 3), (31, 22, 6), (25, 9, 3), (31, 16, 4), (31, 29, 14)]
SPRITES = {
    0: LAMPLIGHT,
    1: [(9, 2, 4), (24, 5, 6), (30, 10, 8), (31, 28, 21), (26, 21, 16)] + BASKET,
    2: [(3, 5, 9), (6, 13, 20), (11, 21, 26), (31, 29, 20), (25, 22, 16)] + BASKET,
    3: BOATMAN,
    4: [(3, 9, 10), (9, 20, 14), (15, 27, 17), (31, 29, 22), (25, 23, 17)] + BASKET,
    5: [(2, 1, 5), (5, 2, 8), (31, 9, 6)],
    6: BOATMAN,
}


def noise(x, y):
    """A number of 0 to 255 that looks drawn by lot."""
    n = (x * 374761393 + y * 668265263) % 2**32
    n = (n ^ n >> 13) * 1274126177 % 2**32
    return (n ^ n >> 16) % 256


def dither(value, x, y):
    """A whole number whose mean over a few pixels is the value."""
    return math.floor(value + (BAYER[y % 4][x % 4] + 0.5) / 16)


# Column, row and slope of the mountains' peaks; the first and the last are seen across the map's edge.
PEAKS = ((-20, 96, 0.8), (52, 84, 0.62), (118, 108, 0.7), (146, 92, 0.95), (188, 104, 0.66), (236, 96, 0.8),
         (308, 84, 0.62))


def sky(x, y):
    """BG2, in columns of the picture: near hills, mountains, moon, stars, dusk."""
    wave = math.tau * x / 256
    if y > LAKE - 11 + 5 * math.sin(3 * wave + 1) + 2 * math.sin(8 * wave) + noise(x // 2, 3) / 128:
        return 15
    rough = 2 * math.sin(11 * wave) + noise(x // 3, 1) / 100
    top, centre = min((p[1] + abs(x - p[0]) * p[2], p[0]) for p in PEAKS)
    if y > top + rough:
        lit = x - centre > noise(y // 3, centre) / 42 - 3
        snow = y < 109 + noise(x // 2, 2) / 32 + (0 if lit else -5)
        return (12 if lit else 13) if snow else (13 if lit else 14)
    away = math.hypot(x - MOON[0], y - MOON[1])
    if away < MOON[2]:
        craters = ((196, 44, 5), (210, 56, 6), (206, 38, 3), (195, 60, 3), (215, 46, 2))
        if any(math.hypot(x - cx, y - cy) < r for cx, cy, r in craters):
            return 10
        return 9 + min(dither(max(0, (MOON[0] - x + y - MOON[1]) / 22 - 0.55), x, y), 2)
    glow = max(0, 1 - (away - MOON[2]) / 26) * 1.6
    if noise(x, y) == 7 and y < 104 and away > 40:
        return 12
    return 1 + min(dither(6.6 * (y / LAKE) ** 1.15 + glow, x, y), 7)


def far(x, y):
    """BG2: the sky, and the sky in the lake."""
    return sky(x % 256, y if y < LAKE else 2 * LAKE - 1 - y) if y < SILL else 15


def far_style(x, y):
    return 2 if y < LAKE else 3, False


# Left and right edge, top of the wall, height of the roof (0: battlements).
TOWERS = ((84, 99, 104, 0), (18, 34, 72, 22), (46, 59, 58, 26), (34, 74, 92, 0), (70, 86, 52, 30))
LIGHTS = ((25, 84), (25, 104), (51, 70), (54, 84), (41, 104), (50, 104), (61, 104), (77, 66), (77, 84), (77, 106),
          (91, 116))


def tower(x, y, left, right, top, roof):
    middle = (left + right) / 2
    if roof and top - roof <= y < top:
        reach = (y - top + roof) * (right - left + 6) / 2 / roof
        if abs(x - middle) <= reach:
            return 7 + min(2, dither((x - middle) / max(reach, 1) + 0.9, x, y))
    if roof and top - roof - 9 <= y < top - roof and x == round(middle):
        return 1
    if roof and top - roof - 9 <= y < top - roof - 4 and 0 < x - middle < 8 - abs(y - top + roof + 7):
        return 12
    if not left <= x < right or y < top - (4 if not roof and x // 3 % 2 else 0):
        return 0
    if x == left or y == top:
        return 1
    if x == right - 1:
        return 6
    light = 0.4 + 3.2 * (x - left) / (right - left)
    mortar = y % 4 == 3 or (x + y // 4 % 2 * 3) % 6 == 0
    return 2 + min(3, max(0, dither(light - (1 if mortar else 0), x, y)))


def keep(x, y):
    """BG1 left of the reeds: the keep on its rock."""
    for cx, cy in LIGHTS:
        if abs(x - cx) <= 1 and abs(y - cy) <= 2 and not (abs(x - cx) == 1 and y == cy - 2):
            return 10 if y < cy + 1 else 11
    rock = 122 + 5 * math.sin(x / 7) + noise(x // 3, 5) / 64 + max(0, x - 92) * 0.9
    if y >= rock and x < 140:
        rugged = math.sin(x / 5 + y / 9) + noise(x // 2, y // 3) / 128 - 0.6
        return 15 if y < rock + 1.5 else 13 + min(1, max(0, dither(rugged, x, y)))
    found = [tower(x, y, *t) for t in TOWERS]
    return next((index for index in reversed(found) if index), 0)


# Foot, row of the top, and how far the top leans.
STEMS = ((229, 144, 6), (233, 156, -3), (237, 138, 7), (240, 150, -5), (243, 162, 3), (245, 146, -4), (224, 166, -5))


def reeds(x, y):
    """BG1 at the right edge: reeds before all that floats."""
    for foot, top, lean in STEMS:
        rise = (SILL - y) / (SILL - top)
        off = x - foot - lean * rise * rise
        if 0 <= rise <= 1 and abs(off) < 1.1 - 0.4 * rise:
            return 6 if off > 0 else 3
        if 0.82 <= rise <= 1.02 and abs(off) < 2.2:
            return 15 if off > 0.8 else 9
    blade = SILL - 20 - 9 * math.sin(x * 1.7) - noise(x, 9) / 16
    return 1 + noise(x, 4) % 5 if y > blade + max(0, 228 - x) * 2.4 and y < SILL else 0


def near(x, y):
    """BG1: reeds, the keep, and the keep in the lake."""
    x %= 512
    if x >= 256 or y >= SILL:
        return 0
    if x >= 208:
        return reeds(x, y)
    return keep(x, y) if y < LAKE else keep(x + round(1.3 * math.sin(y * 0.9)), 2 * LAKE - 1 - y)


def near_style(x, y):
    """The palette of a tile of BG1, and whether it is in front."""
    if x >= 208:
        return 6, True
    return (4, x < 34) if y < LAKE else (5, False)


def caption(x, y):
    """Letters in dots of two by two pixels, which a mosaic of 2 leaves as they are, and their shade."""
    for index, shift in ((2, 0), (3, 2)):
        for text, left in (("HARREVON", 16), ("PLATE 1", 168)):
            n, column = divmod((x - left - shift) // 2, 6)
            row = (y - 206 - shift) // 2
            if 0 <= n < len(text) and column < 5 and 0 <= row < 7 and LETTERS[text[n]].split()[row][column] == "#":
                return index
    return 1


def veil(x, y):
    """BG3: the frame and the caption in front of everything; water and mist on the sub screen alone."""
    if y < 8 or y >= 256 - 8:
        return 1
    if y >= SILL:
        return caption(x, y)
    if x >= 208 and reeds(x, y):
        return 0
    if y >= LAKE:
        depth = y - LAKE + 2
        wave = math.sin(x * 1.6 / math.sqrt(depth) + 40 / depth + 3 * math.sin(y * 0.8)) + math.sin(x / 19 + y * 0.55)
        path = abs(x - MOON[0] + 3 * math.sin(y * 0.9)) < 5 + depth * 0.32
        if path and noise(x // 4, y // 2) < 150 - depth:
            return 3
        return 1 if wave > 0.5 else 2 if wave > -1.1 else 0
    thick = 0.9 - abs(y - 146) / 9 + 0.7 * math.sin(x / 31 + y / 7 + 1) + 0.4 * math.sin(x / 12 - y / 4)
    return min(3, max(0, dither(thick, x, y))) if 120 <= y else 0


def veil_style(x, y):
    """The palette of a tile of BG3, and whether it is in front; else it lies behind BG1 and BG2."""
    if y < 8 or y >= SILL:
        return 0, True
    return 2 if y < LAKE else 1, False


def balloon(x, y):
    """A sprite of 32 by 32: stripes, ropes and a basket."""
    if y >= 26:
        return 0 if not 12 <= x < 20 or y > 30 else 6 if y < 28 else 7 if x in (12, 19) or y == 30 else 6
    half = 14.5 * math.sqrt(max(0, 1 - ((y - 12) / 13) ** 2)) if y < 13 else 14.5 - max(0, y - 13) ** 1.62 * 0.2
    off = x - 15.5
    if abs(off) > half:
        return 5 if y > 19 and abs(abs(off) - (half + 1.5)) < 0.6 and abs(off) < 8 else 0
    if abs(off) > half - 1:
        return 1
    gore = math.floor(math.asin(off / (half + 0.01)) / 0.45 + 0.5) % 2
    light = dither(0.5 + off / 26 - y / 60, x, y)
    return (3 if light else 2) if gore else (4 if light else 5)


def drawn(art):
    """The shape of a sprite that is drawn as text."""
    rows = art.replace(".", "0").split()
    return lambda x, y: int(rows[y][x], 16) if y < len(rows) else 0


# The sprites' first tiles of a table of 16 columns, their sides in tiles, and their shapes.
SHAPES = ((0, 4, balloon), (4, 4, drawn(BOAT)), (8, 1, drawn(BAT_UP)), (9, 1, drawn(BAT_DOWN)),
          (10, 1, drawn(LANTERN)))


def crowd():
    """The sprites in order: column, top, tile, palette, priority, flip in x, flip in y, large."""
    yield 124, 54, 0, 1, 2, False, False, True  # 0 to 2: the balloons
    yield 92, 40, 0, 2, 2, False, False, True
    yield 174, 64, 0, 4, 2, True, False, True
    yield 92, 159, 4, 3, 2, False, False, True  # 3: the boat
    for i in range(38):  # 4 to 41: lanterns, every second one before the reeds
        yield 10 + i * 25 // 4, 178 + round(1.6 * math.sin(i / 2.5)), 10, 0, 2 + i % 2, False, False, False
    yield 92, 183, 4, 6, 2, False, True, True  # 42: the boat in the lake, under colour math
    for i in range(84):  # 43 to 126: bats
        x = 8 + i // 4 * 45 // 4 + i % 2 * 5 + noise(i, 1) % 4
        y = 56 + i % 4 * 6 + round(5 * math.sin(x / 27)) + noise(i, 2) % 3
        yield x, y, 8 + i % 2, 5, 2, i % 3 == 0, False, False
