"""Draws a listing as an SVG picture, for tools/space-map.

The areas are split into strips at their widest gaps. Each strip has a scale of its own, on which wide gaps are cut out,
and three lanes: what a user, a supervisor and an implicit access may do. A bar on top shows where in the space each
strip lies.
"""
from collections import defaultdict
from collections.abc import Iterator
from dataclasses import dataclass, field
from heapq import nlargest
from html import escape

from listings import (
    CONCERNS,
    IMPLICIT,
    PAGE,
    SUPERVISOR,
    UPPER_HALF,
    USER,
    WIDTHS,
    Listing,
    count_text,
    range_text,
    size_text,
)

# Everything below is in units of the picture, which a browser shows as pixels.
WIDTH, MARGIN = 1000, 28
LEFT = 112
SPAN = WIDTH - MARGIN - LEFT

MOST_STRIPS = 20
# A gap of less than this never begins a strip.
LEAST_GAP = 1 << 20
# A cut is so wide, and a strip has so many at most.
CUT, MOST_CUTS = 12, 24
# One page is never drawn wider than this, so that a small strip looks small.
WIDEST_PAGE = 64
# Areas that are narrower are drawn together, in blocks that are at least so wide.
NARROW, BLOCK = 3, 8
# A block has a part for each kind of rights in it, and none is lower than this.
LEAST_PART = 2

LANES = (("user", USER), ("supervisor", SUPERVISOR), ("implicit", IMPLICIT))
LANE, LANE_STEP = 15, 18
# A character of monospaced text is at most so wide, in parts of its size.
CHARACTER = 0.61

# For each class of rights: its letters, its name, and its colour and that of letters in it, on light and then on dark.
# The hues stay apart for the colour-blind, and what can be run is hatched.
CLASSES = {
    "r": ("r--", "read", ("#8fc7ee", "#101418"), ("#4a9fd8", "#101418")),
    "rw": ("rw-", "read, write", ("#f2b134", "#101418"), ("#e0a030", "#101418")),
    "rx": ("r-x", "read, run", ("#3fb28f", "#101418"), ("#2fae88", "#101418")),
    "x": ("--x", "run", ("#b9a3dc", "#101418"), ("#a78bd8", "#101418")),
    "rwx": ("rwx", "read, write, run", ("#c2255c", "#ffffff"), ("#ff6b9d", "#101418")),
    "w": ("-w-", "write", ("#f2b134", "#101418"), ("#e0a030", "#101418")),
    "wx": ("-wx", "write, run", ("#c2255c", "#ffffff"), ("#ff6b9d", "#101418")),
    "none": ("---", "mapped, no access", ("#dfe3e8", "#59636e"), ("#343b44", "#9aa4af")),
}
# The order of the parts of a block, from the bottom up: what can be written and run is on top.
PART_ORDER = ("none", "r", "x", "rx", "w", "rw", "wx", "rwx")


def class_of(letters: str) -> str:
    return letters.replace("-", "") or "none"


def number(value: float) -> str:
    """A coordinate: as short as can be, and the same on each machine."""
    return f"{value:.2f}".rstrip("0").rstrip(".")


def rectangle(kind: str, x: float, y: float, width: float, height: float) -> str:
    size = f'width="{number(width)}" height="{number(height)}"'
    return f'<rect class="{kind}" x="{number(x)}" y="{number(y)}" {size}/>'


def words(kind: str, x: float, y: float, text: str, anchor: str = "start") -> str:
    place = "" if anchor == "start" else f' text-anchor="{anchor}"'
    return f'<text class="{kind}" x="{number(x)}" y="{number(y)}"{place}>{escape(text)}</text>'


def line(kind: str, *points: float) -> str:
    moves = " ".join(f"{number(x)} {number(y)}" for x, y in zip(points[::2], points[1::2]))
    return f'<path class="{kind}" d="M{moves}"/>'


# ---- What is drawn where ----


@dataclass
class Strip:
    """The areas from one number up to another, and the segments of addresses that their scale shows."""

    begin: int
    end: int
    # For each: its first address, the address after it, and where it begins in the picture.
    segments: list[tuple[int, int, float]]
    # How wide a byte is.
    scale: float
    blocks: list["Block"] = field(default_factory=list)


@dataclass
class Block:
    """Areas from one number up to another that are drawn as one, and the place of it."""

    begin: int
    end: int
    x: float
    width: float

    def is_mixed(self) -> bool:
        return self.end - self.begin > 1


def strips_of(listing: Listing) -> list[Strip]:
    """Splits the areas at all gaps of some power of two or more: the least by which there aren't too many strips."""
    starts = listing.first
    gaps = [(starts[i] - listing.last[i - 1] - 1, i) for i in range(1, len(listing))]
    gaps = [gap for gap in gaps if gap[0] >= LEAST_GAP]
    # With so many gaps there would be one strip too many. The one between the halves is the widest, and always splits.
    over = nlargest(MOST_STRIPS, (size for size, _ in gaps))
    least = LEAST_GAP
    while len(over) == MOST_STRIPS and over[-1] >= least:
        least *= 2
    begins = [i for size, i in gaps if size >= least]
    if not len(listing):
        return []
    return [strip_of(listing, begin, end) for begin, end in zip([0, *begins], [*begins, len(listing)])]


def strip_of(listing: Listing, begin: int, end: int) -> Strip:
    """Cuts out the widest gaps, as long as one is wider in the picture than a cut is."""
    shown = listing.last[end - 1] + 1 - listing.first[begin]
    scale = min(SPAN / shown, WIDEST_PAGE / PAGE)
    gaps = ((listing.first[i] - listing.last[i - 1] - 1, i) for i in range(begin + 1, end))
    cuts = []
    for size, i in nlargest(MOST_CUTS, gaps):
        if size * scale <= CUT:
            break
        cuts.append(i)
        shown -= size
        scale = min((SPAN - CUT * len(cuts)) / shown, WIDEST_PAGE / PAGE)
    segments, x = [], float(LEFT)
    cuts.sort()
    for first, after in zip([begin, *cuts], [*cuts, end]):
        start, stop = listing.first[first], listing.last[after - 1] + 1
        segments.append((start, stop, x))
        x += (stop - start) * scale + CUT
    strip = Strip(begin, end, segments, scale)
    strip.blocks = list(blocks_of(listing, strip))
    return strip


def blocks_of(listing: Listing, strip: Strip) -> Iterator[Block]:
    """Each wide area alone, and narrow ones together with their neighbours."""
    segment = iter(strip.segments)
    start, stop, origin = next(segment)
    open_block: Block | None = None
    for i in range(strip.begin, strip.end):
        first, after = listing.first[i], listing.last[i] + 1
        is_next_segment = first >= stop
        if is_next_segment:
            start, stop, origin = next(segment)
        x = origin + (first - start) * strip.scale
        width = (after - first) * strip.scale
        if open_block is not None:
            is_apart = is_next_segment or x - (open_block.x + open_block.width) >= NARROW
            if width >= NARROW or is_apart or open_block.width >= BLOCK:
                yield open_block
                open_block = None
        if width >= NARROW:
            yield Block(i, i + 1, x, width)
        elif open_block is None:
            open_block = Block(i, i + 1, x, width)
        else:
            open_block.end = i + 1
            open_block.width = x + width - open_block.x
    if open_block is not None:
        yield open_block


def sizes_of(listing: Listing, block: Block) -> dict[str, int]:
    """The bytes of a block by their rights."""
    sizes: dict[str, int] = defaultdict(int)
    for i in range(block.begin, block.end):
        sizes[listing.rights[i]] += listing.last[i] - listing.first[i] + 1
    return sizes


def parts_of(sizes: dict[str, int], whole: int, lane: slice) -> list[tuple[str, float]]:
    """The classes of rights of a block in a lane, each with its share of the block's addresses."""
    classes: dict[str, int] = defaultdict(int)
    for rights, size in sizes.items():
        classes[class_of(rights[lane])] += size
    return [(kind, classes[kind] / whole) for kind in PART_ORDER if kind in classes]


def heights_of(shares: list[float]) -> list[float]:
    """The heights of the parts of a lane: by their shares, but none is too low to be seen."""
    least = min(LEAST_PART, LANE / len(shares))
    high = [share * LANE for share in shares if share * LANE > least]
    # What the low parts take is taken from the high ones, as far as the lane has no room for both.
    room = LANE - least * (len(shares) - len(high))
    factor = min(1, room / sum(high)) if high else 1
    return [share * LANE * factor if share * LANE > least else least for share in shares]


# ---- The drawing ----


def area_title(listing: Listing, i: int) -> str:
    what = f"{listing.rights[i]}, {size_text(listing.size(i))}, frame {listing.frame[i]:#x}"
    return f"{range_text(listing.first[i], listing.last[i])}\n{what}"


def block_title(listing: Listing, block: Block, sizes: dict[str, int]) -> str:
    largest = sorted(sizes.items(), key=lambda item: (-item[1], item[0]))
    names = ", ".join(f"{rights} {size_text(size)}" for rights, size in largest[:6])
    more = f", and {len(largest) - 6} other rights" if len(largest) > 6 else ""
    area = range_text(listing.first[block.begin], listing.last[block.end - 1])
    return f"{area}\n{count_text(block.end - block.begin, 'area')}: {names}{more}"


def draw_area(listing: Listing, block: Block, y: float) -> Iterator[str]:
    """An area that is drawn alone, with its letters where they have room."""
    yield f"<g><title>{escape(area_title(listing, block.begin))}</title>"
    width = max(block.width, NARROW)
    for row, (_, lane) in enumerate(LANES):
        letters = listing.rights[block.begin][lane]
        yield rectangle(f"c {class_of(letters)}", block.x, y + row * LANE_STEP, width, LANE)
        if width >= 28:
            place = block.x + width / 2
            yield words(f"in {class_of(letters)}-in", place, y + row * LANE_STEP + 11, letters, "middle")
    yield "</g>"


def draw_block(listing: Listing, block: Block, y: float) -> Iterator[str]:
    """Areas that are drawn together: in each lane a part for each class of rights."""
    sizes = sizes_of(listing, block)
    whole = listing.last[block.end - 1] + 1 - listing.first[block.begin]
    yield f"<g><title>{escape(block_title(listing, block, sizes))}</title>"
    width = max(block.width, NARROW)
    for row, (_, lane) in enumerate(LANES):
        top = y + row * LANE_STEP
        yield rectangle("mixed", block.x, top, width, LANE)
        parts = parts_of(sizes, whole, lane)
        bottom = top + LANE
        for (kind, _), height in zip(parts, heights_of([share for _, share in parts])):
            bottom -= height
            yield rectangle(kind, block.x, bottom, width, height)
    yield "</g>"


def scale_bar(strip: Strip, y: float) -> Iterator[str]:
    """A length of a power of two, drawn as long as it is on the strip's scale."""
    size = 1
    while size * strip.scale < 36:
        size *= 2
    length = size * strip.scale
    right = WIDTH - MARGIN
    label = size_text(size)
    yield words("small", right, y, label, "end")
    end = right - len(label) * 6.6 - 6
    start = end - length
    yield line("scale", start, y - 7, start, y - 1, start, y - 4, end, y - 4, end, y - 7, end, y - 1)


def tick_labels(listing: Listing, strip: Strip) -> list[tuple[float, str]]:
    """Where areas begin after the first, as far as the addresses have room. Those after a cut are served first."""
    starts = [(x, start) for start, _, x in strip.segments[1:]]
    wide = (block for block in strip.blocks if block.width >= NARROW and block.x > LEFT)
    starts += [(block.x, listing.first[block.begin]) for block in wide]
    taken: list[tuple[float, float]] = []
    labels = []
    for x, address in starts:
        text = f"{address:#x}"
        right = x + len(text) * 10 * CHARACTER + 8
        if right <= WIDTH - MARGIN + 8 and all(right <= a or x >= b for a, b in taken):
            taken.append((x, right))
            labels.append((x, text))
    return sorted(labels)


def draw_strip(listing: Listing, strip: Strip, place: int, y: float) -> tuple[list[str], float]:
    """The parts of a strip's drawing, and where it ends."""
    first, last = listing.first[strip.begin], listing.last[strip.end - 1]
    size = listing.mapped(strip.begin, strip.end)
    area = range_text(first, last).replace("-", "\u2013")
    parts = badge(place, MARGIN + 8, y + 8)
    parts.append(words("mono", LEFT, y + 12, area))
    count = f"{count_text(strip.end - strip.begin, 'area')}, {size_text(size)}"
    parts.append(words("small", LEFT + len(area) * 12 * CHARACTER + 16, y + 12, count))
    parts += scale_bar(strip, y + 12)
    top = y + 22
    for row, (name, _) in enumerate(LANES):
        parts.append(words("small", LEFT - 10, top + row * LANE_STEP + 11, name, "end"))
    # The narrow ones are drawn last: where they are widened to be seen, nothing hides them.
    for block in sorted(strip.blocks, key=lambda block: block.width < NARROW):
        parts += (draw_block if block.is_mixed() else draw_area)(listing, block, top)
    bottom = top + len(LANES) * LANE_STEP - (LANE_STEP - LANE)
    parts += draw_cuts(strip, top, bottom)
    labels = tick_labels(listing, strip)
    for x, text in labels:
        parts.append(line("tick", x, bottom + 2, x, bottom + 7))
        parts.append(words("address", x, bottom + 17, text))
    return parts, bottom + (36 if labels else 20)


def draw_cuts(strip: Strip, top: float, bottom: float) -> Iterator[str]:
    for (_, before, _), (after, _, x) in zip(strip.segments, strip.segments[1:]):
        middle = x - CUT / 2
        title = f"nothing mapped: {range_text(before, after - 1)}, {size_text(after - before)}"
        yield f"<g><title>{escape(title)}</title>"
        yield line("cut", middle - 3, bottom, middle + 1, top)
        yield line("cut", middle - 1, bottom, middle + 3, top) + "</g>"


def badge(place: int, x: float, y: float) -> list[str]:
    """The number of a strip, in a circle."""
    circle = f'<circle class="badge" cx="{number(x)}" cy="{number(y)}" r="9"/>'
    return [circle, words("badge-in", x, y + 3.5, str(place), "middle")]


def spread(wanted: list[float], step: float, least: float, most: float) -> list[float]:
    """Places near the wanted ones, which ascend, at least a step apart and within bounds."""
    places: list[float] = []
    for x in wanted:
        places.append(max(x, places[-1] + step if places else least))
    limit = most
    for i in reversed(range(len(places))):
        places[i] = min(places[i], limit)
        limit = places[i] - step
    return places


def draw_overview(listing: Listing, levels: int, strips: list[Strip], y: float) -> tuple[list[str], float]:
    """The two halves to one scale, and between them what isn't canonical, which isn't."""
    half, bar = 1 << WIDTHS[levels] - 1, 410
    upper_x = WIDTH - MARGIN - bar
    upper_start = (1 << 64) - half
    parts = []
    for x, start, name in ((MARGIN, 0, "lower half"), (upper_x, upper_start, "upper half")):
        parts.append(words("address", x, y + 10, f"{start:#x}"))
        parts.append(words("small", x + bar / 2, y + 10, name, "middle"))
        parts.append(words("address", x + bar, y + 10, f"{start + half - 1:#x}", "end"))
        parts.append(rectangle("half", x, y + 17, bar, 18))
    parts.append(rectangle("hole", MARGIN + bar, y + 17, upper_x - MARGIN - bar, 18))
    parts.append(words("small", (MARGIN + bar + upper_x) / 2, y + 30, "not canonical", "middle"))
    middles = []
    for strip in strips:
        first, last = listing.first[strip.begin], listing.last[strip.end - 1]
        x = upper_x + (first - upper_start) * bar / half if first >= UPPER_HALF else MARGIN + first * bar / half
        width = max((last + 1 - first) * bar / half, 2)
        x = min(x, (WIDTH - MARGIN if first >= UPPER_HALF else MARGIN + bar) - width)
        title = f"{range_text(first, last)}\n{count_text(strip.end - strip.begin, 'area')}"
        parts.append(f"<g><title>{escape(title)}</title>{rectangle('used', x, y + 17, width, 18)}</g>")
        middles.append(x + width / 2)
    for place, (x, at) in enumerate(zip(middles, spread(middles, 23, MARGIN + 9, WIDTH - MARGIN - 9)), 1):
        parts.append(line("leader", x, y + 36, at, y + 52))
        parts += badge(place, at, y + 61)
    return parts, y + (94 if strips else 60)


def draw_legend(listing: Listing, has_cuts: bool, has_mixed: bool, y: float) -> tuple[list[str], float]:
    """The classes of rights that there are, and what else the picture shows."""
    kinds = {class_of(rights[lane]) for rights in set(listing.rights) for _, lane in LANES}
    parts, x = [], float(MARGIN)
    for kind, (letters, name, _, _) in CLASSES.items():
        if kind not in kinds:
            continue
        if x + 50 + len(name) * 6.2 > WIDTH - MARGIN:
            x, y = float(MARGIN), y + 24
        parts.append(rectangle(f"c {kind}", x, y, 34, LANE))
        parts.append(words(f"in {kind}-in", x + 17, y + 11, letters, "middle"))
        parts.append(words("small", x + 41, y + 11, name))
        x += 41 + len(name) * 6.2 + 20
    y += 33
    notes = ["Each strip has its own scale: the bar at its right is as long as it says."]
    if has_cuts:
        notes[0] += " // is a gap that was cut out."
    if has_mixed:
        notes.append(
            "Areas too narrow to be drawn apart share a framed block: heights are their parts of its addresses, "
            "at least a line each, and what is empty is unmapped."
        )
    for note in notes:
        parts.append(words("small", MARGIN, y, note))
        y += 16
    return parts, y + 8


def headline(listing: Listing) -> str:
    """The answers to what someone who looks over a space asks first."""
    totals = listing.totals()
    sizes = [sum(size for kind, (size, _) in totals.items() if is_meant(*kind)) for is_meant in CONCERNS.values()]
    reach, user, supervisor = (size_text(size) if size else "nothing" for size in sizes)
    return (
        f"A user reaches {reach} in the upper half. "
        f"Both written and run: by a user {user}, by a supervisor {supervisor}."
    )


def style() -> str:
    """The colours, on light and on dark."""
    common = (
        "text{font-family:system-ui,-apple-system,'Segoe UI',Helvetica,Arial,sans-serif;font-size:11px}"
        ".title{font-size:19px;font-weight:600}.lead{font-size:12.5px}"
        ".mono,.address,.in{font-family:ui-monospace,SFMono-Regular,Menlo,Consolas,'DejaVu Sans Mono',monospace}"
        ".mono{font-size:12px}.address{font-size:10px}.in{font-size:10px}"
        ".badge-in{font-size:10px;font-weight:600}"
        "path{fill:none}.cut{stroke-width:1.2}.c{stroke-width:.8}.half,.hole,.mixed{stroke-width:.8}"
    )
    light = colours("#ffffff", "#1f2328", "#59636e", "#f3f5f7", "#c4cbd3", "#44546a", "#ffffff", 2)
    dark = colours("#0d1117", "#e6edf3", "#9aa4af", "#161b22", "#3d444d", "#9fb3c8", "#0d1117", 3)
    return f"<style>{common}{light}@media (prefers-color-scheme:dark){{{dark}}}</style>"


def colours(
    paper: str, ink: str, faint: str, empty: str, frame: str, mark: str, mark_ink: str, column: int
) -> str:
    rules = [
        f".paper{{fill:{paper}}}text{{fill:{ink}}}.small,.lead,.address{{fill:{faint}}}",
        f".half{{fill:{empty};stroke:{frame}}}.hole{{fill:url(#hole);stroke:{frame}}}.hole-line{{stroke:{frame}}}",
        f".used,.badge{{fill:{mark}}}.badge-in{{fill:{mark_ink}}}.leader,.cut,.scale{{stroke:{mark}}}",
        f".tick{{stroke:{faint}}}.mixed{{fill:{empty};stroke:{frame}}}.c{{stroke:{paper}}}",
    ]
    for kind, values in CLASSES.items():
        colour, letters = values[column]
        rules.append(f".{kind}-base{{fill:{colour}}}.{kind}{{fill:{f'url(#{kind})' if 'x' in kind else colour}}}")
        rules.append(f".{kind}-in{{fill:{letters}}}")
    return "".join(rules)


def patterns() -> Iterator[str]:
    """What is hatched: what can be run, closer where it can be written too, and what isn't canonical."""
    for kind in CLASSES:
        if "x" in kind:
            step = 4 if "w" in kind else 7
            yield (
                f'<pattern id="{kind}" width="{step}" height="{step}" patternUnits="userSpaceOnUse"'
                f' patternTransform="rotate(45)"><rect class="{kind}-base" width="{step}" height="{step}"/>'
                f'<path d="M0 0V{step}" stroke="#101418" stroke-opacity=".3" stroke-width="1.5"/></pattern>'
            )
    yield (
        '<pattern id="hole" width="6" height="6" patternUnits="userSpaceOnUse" patternTransform="rotate(-45)">'
        '<path class="hole-line" d="M0 0V6" stroke-opacity=".6"/></pattern>'
    )


def picture(listing: Listing, levels: int, title: str) -> str:
    """The whole picture."""
    strips = strips_of(listing)
    has_cuts = any(len(strip.segments) > 1 for strip in strips)
    has_mixed = any(block.is_mixed() for strip in strips for block in strip.blocks)
    parts = [words("title", MARGIN, 44, title), words("lead", MARGIN, 66, f"{listing.outline(levels)}.")]
    y = 84
    if strips:
        parts.append(words("lead", MARGIN, 84, headline(listing)))
        drawn, y = draw_legend(listing, has_cuts, has_mixed, 102)
        parts += drawn
    drawn, y = draw_overview(listing, levels, strips, y)
    parts += drawn
    for place, strip in enumerate(strips, 1):
        drawn, y = draw_strip(listing, strip, place, y)
        parts += drawn
    height = number(y)
    return "\n".join(
        [
            f'<svg xmlns="http://www.w3.org/2000/svg" viewBox="0 0 {WIDTH} {height}" width="{WIDTH}" height="{height}"'
            ' role="img">',
            f"<title>{escape(title)}</title>",
            style(),
            f"<defs>{''.join(patterns())}</defs>",
            rectangle("paper", 0, 0, WIDTH, y),
            *parts,
            "</svg>\n",
        ]
    )
