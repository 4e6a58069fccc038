"""Which colour a drawing is to have where, worked out from its text: behind all, and in bars where nothing lies over them."""
import re
from math import ceil, floor
from typing import NamedTuple

# The colours of defs, in light and in dark: that of main, or of rows without a name, the ten of the first defs, and those of more.
DEFS = ["7f8a99", "4c78a8", "4a9641", "a8699a", "bb8500", "2a948e", "9d755d", "7b6cc4", "d0658a", "7a9040", "4a8fbf", "a761ae", "7a8745", "577fa8", "af6473", "478a4d",
        "886eb4", "8d7749", "458784", "ae619a", "648745", "6b77b3", "ac685d", "458761", "9b68b1", "878745", "4e8197"]

# The colours of a drawing: behind all, of the strip of the chain, and of bars by their def.
BARS = {f"c{number}": tuple(bytes.fromhex(it)) for number, it in enumerate(DEFS)}
COLOURS = {"light": {"ground": (255, 255, 255), "chain": (200, 65, 12), **BARS}, "dark": {"ground": (20, 23, 26), "chain": (255, 122, 61), **BARS}}

# How far the edge of a bar reaches, in pixels that are drawn.
EDGE = 1

# In how many bars of a group places are looked for.
MOST = 24


class Box(NamedTuple):
    """A part of a drawing that has the colour of a group."""
    group: str
    top: float
    left: float
    right: float
    bottom: float
    is_joined: bool = False

    def is_thin(self):
        """Its edge is of its own colour, as that of one is that such boxes were joined to."""
        return self.is_joined or self.right - self.left < 2 or self.bottom - self.top < 2

    def is_wide(self):
        """It has pixels that no edge reaches."""
        return not self.is_thin() and self.right - self.left >= 2 * EDGE + 2 and self.bottom - self.top >= 2 * EDGE + 2

    def meets(self, x, y):
        """A part of this pixel is in it or its edge."""
        return self.left - EDGE < x + 1 and x < self.right + EDGE and self.top - EDGE < y + 1 and y < self.bottom + EDGE


class Place(NamedTuple):
    """A pixel in a box, and whether it has the colour of the group alone, and nothing of edges and of what is behind."""
    group: str
    x: int
    y: int
    is_alone: bool = True

    def fault_of(self, colour, scheme):
        """What is wrong with this colour of the pixel: it may have a part of what is behind all, where it is not alone."""
        wanted, ground = COLOURS[scheme][self.group], COLOURS[scheme]["ground"]
        most = [0 if self.is_alone else 8 + abs(one - other) * 0.3 for one, other in zip(wanted, ground)]
        if all(abs(one - other) <= away for one, other, away in zip(colour, wanted, most)):
            return None
        return f"{scheme}: at {self.x}, {self.y} there is {colour} in place of {wanted}, the colour of {self.group}"


def places_in(drawing):
    """Places behind all, in bars above their text, and in the strips of the chain."""
    boxes = boxes_in(drawing)
    lines = [Box("", min(y, end) - 1, x - 1.3, x + 1.3, max(y, end) + 1) for x, y, end in lines_in(drawing)]
    places = [Place("ground", 3, 3), Place("ground", 990, 60)]
    for group in dict.fromkeys(box.group for box in boxes):
        above = lines + [box for box in boxes if box.group == "chain" != group]
        own = [box for box in joined(boxes) if box.group == group and box.right - box.left >= 3]
        for box in own[::max(1, len(own) // MOST)]:
            places += [Place(group, x, y, box.is_wide()) for x, y in pixels_in(box) if not any(it.meets(x, y) for it in above)]
    return places


def boxes_in(drawing):
    """The bars of rows, as far as no text is over them, and the strips of the chain in them, lane by lane; none in a lane of many rows."""
    boxes = []
    for group, left, top, width in re.findall(r'<g id="r\d+"><title>[^<]*</title><path class="(c\d+)" d="M([\d.]+) ([\d.]+)h([\d.]+)', drawing):
        boxes.append(Box(group, float(top), float(left), float(left) + float(width), float(top) + 4))
    strips = re.search(r'<path class="chain" d="([^"]*)"', drawing)
    for numbers in re.findall(r"M([\d.]+) ([\d.]+)h([\d.]+)v([\d.]+)", strips[1] if strips else ""):
        left, top, width, height = map(float, numbers)
        boxes.append(Box("chain", top, left, left + width, top + height))
    return sorted(boxes, key=lambda box: (box.group == "chain", box))


def joined(boxes):
    """The boxes, where thin ones that follow each other in one lane are one."""
    found = []
    for box in boxes:
        last = found[-1] if found else None
        if last and (box.group, box.top) == last[:2] and box.is_thin() and last.is_thin() and box.left - last.right < 0.15:
            found[-1] = last._replace(right=max(last.right, box.right), is_joined=True)
        else:
            found.append(box)
    return found


def lines_in(drawing):
    """The lines over bars: links, marks of spawns, and the ends of a greedy plan. Of each its place across, and from where to where it goes."""
    over = drawing.partition('<path class="spawns"')[2]
    return [tuple(map(float, it)) for it in re.findall(r"M([\d.]+) ([\d.]+)V([\d.]+)", over)]


def pixels_in(box):
    """Some pixels inside a box."""
    aside, above = (EDGE if box.is_wide() else 0.25), (EDGE if box.is_wide() else 0)
    across, down = range(ceil(box.left + aside), floor(box.right - aside)), range(ceil(box.top + above), floor(box.bottom - above))
    for right, low in ((0.2, 0.7), (0.5, 0.3), (0.8, 0.7), (0.5, 0.7)):
        if across and down:
            yield across[int(len(across) * right)], down[int(len(down) * low)]
