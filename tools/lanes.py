"""Draws what `watch` printed, as PBFT's papers do (OSDI 1999, figure 1): a lane for the clients and one for each replica, time from left to right."""
import re
from html import escape

import traces

COLUMN, LANE, LEFT, TOP, GAP = 132, 44, 92, 72, 34  # widths and heights in pixels
INSET = 14  # between the border of a column and its arrows
COLOURS = {
    **{"REQUEST": "#475569", "PRE-PREPARE": "#b45309", "PREPARE": "#1d4ed8", "COMMIT": "#047857", "REPLY": "#475569"},
    **{"CHECKPOINT": "#7e22ce", "VIEW-CHANGE": "#be123c", "NEW-VIEW": "#be123c"},
}
LINE = re.compile(r"([A-Z-]+) ([cr]\d+) (-|[cr]\d+(?:,[cr]\d+)*) (-|\d+) (-|\d+) (-|[0-9a-f]{8}) (-|t\d+)")


class Part:
    """What follows one event of the trace: its arrows by column, and which replicas are silent."""

    def __init__(self, title, silent):
        self.title, self.silent, self.columns, self.says = title, set(silent), {}, []

    def add(self, kind, sender, receivers, view, number, digest):
        # the votes for one number stand in one column
        arrows = self.columns.setdefault((kind, number if kind == "CHECKPOINT" else ""), {})
        for receiver in receivers:
            arrow = lane_of(sender), lane_of(receiver)
            arrows[arrow] = arrows.get(arrow, 0) + 1
        said = f"view {view}, number {number}, digest {digest}"
        if kind == "PRE-PREPARE" and said not in self.says:
            self.says.append(said)


def lane_of(name):
    """0 is the clients' lane, and behind it stand the replicas."""
    return 0 if name[0] == "c" else int(name[1:]) + 1


def read(path):
    """The parts of what `watch` printed, and how many lanes they have."""
    parts, silent, lanes = [], set(), 2
    for line, content in traces.lines(path):
        if event := re.fullmatch(r"(silent|heard) (\d+)", content):
            (silent.add if event[1] == "silent" else silent.discard)(int(event[2]) + 1)
            lanes = max(lanes, int(event[2]) + 2)
        elif re.fullmatch(r"batch \d+\.\d{6}|timeout", content):
            parts.append(Part(content, silent))
        elif parts and (message := LINE.fullmatch(content)):
            kind, sender, receivers, view, number, digest, _ = message.groups()
            receivers = [] if receivers == "-" else receivers.split(",")
            lanes = max([lanes, lane_of(sender) + 1, *(lane_of(receiver) + 1 for receiver in receivers)])
            parts[-1].add(kind, sender, receivers, view, number, digest)
        else:
            raise traces.Fault(f"{path}: line {line}: it is no line of `watch`")
    return parts, lanes


def text(x, y, words, style="", **more):
    attributes = "".join(f' {name.strip("_").replace("_", "-")}="{value}"' for name, value in more.items())
    return f'<text x="{x}" y="{y}"{attributes}{f" class={chr(34)}{style}{chr(34)}" if style else ""}>{escape(words)}</text>'


def height_of(lanes):
    return TOP + (lanes - 1) * LANE + GAP


def lanes_drawn(part, lanes, top, width):
    for lane in range(lanes):
        y = top + TOP + lane * LANE
        silent = lane in part.silent
        name = "clients" if lane == 0 else f"replica {lane - 1}"
        yield text(LEFT - 14, y + 4, name, "silent" if silent else "", text_anchor="end")
        yield f'<line x1="{LEFT}" y1="{y}" x2="{width - 20}" y2="{y}" class="{"lane silent" if silent else "lane"}"/>'
        if silent:
            x = LEFT + 8
            yield f'<path d="M{x - 6} {y - 6}l12 12m0 -12l-12 12" class="cross"/>'


def column_drawn(kind, number, arrows, x, top, lanes):
    colour, middle = COLOURS.get(kind, "#000"), x + COLUMN / 2
    bottom = top + TOP + (lanes - 1) * LANE + 14
    label = kind.lower() + (f" {number}" if number else "")
    yield text(middle, top + TOP - 25, label, text_anchor="middle", style_="fill:" + colour)
    yield f'<line x1="{x + COLUMN}" y1="{top + TOP - 36}" x2="{x + COLUMN}" y2="{bottom}" class="border"/>'
    most = max(arrows.values(), default=0)
    if most > 1:
        yield text(middle, top + TOP - 11, f"\N{MULTIPLICATION SIGN} {most:,}", "small", text_anchor="middle")
    for sender, receiver in sorted(arrows):
        ends = [top + TOP + lane * LANE for lane in (sender, receiver)]
        yield (
            f'<line x1="{x + INSET}" y1="{ends[0]}" x2="{x + COLUMN - INSET}" y2="{ends[1]}" stroke="{colour}" '
            f'stroke-width="1.4" marker-end="url(#{kind.lower()})"/>'
        )
    for sender in sorted({sender for sender, _ in arrows}):
        yield f'<circle cx="{x + INSET}" cy="{top + TOP + sender * LANE}" r="2.6" fill="{colour}"/>'


def part_drawn(part, lanes, top, width):
    yield text(20, top + 24, part.title, "title")
    yield text(20 + 8.2 * len(part.title) + 18, top + 24, "; ".join(part.says) or "no batch is proposed", "small")
    yield from lanes_drawn(part, lanes, top, width)
    for place, ((kind, number), arrows) in enumerate(part.columns.items()):
        yield from column_drawn(kind, number, arrows, LEFT + 20 + place * COLUMN, top, lanes)


def drawing(parts, lanes):
    """The whole picture, as the lines of an SVG."""
    columns = max((len(part.columns) for part in parts), default=0)
    width, height = LEFT + 60 + max(columns, 4) * COLUMN, len(parts) * height_of(lanes) + 10
    yield f'<svg xmlns="http://www.w3.org/2000/svg" width="{width}" height="{height}" viewBox="0 0 {width} {height}">'
    yield "<style>text{font:13px sans-serif;fill:#1e293b}.title{font-weight:bold}.small{font-size:11.5px;fill:#64748b}"
    yield ".lane{stroke:#94a3b8;stroke-width:1}.lane.silent{stroke-dasharray:3 5}text.silent{fill:#94a3b8}.cross{stroke:#be123c;stroke-width:2.2}"
    yield ".border{stroke:#cbd5e1;stroke-dasharray:2 4}</style><defs>"
    for kind, colour in COLOURS.items():
        yield (
            f'<marker id="{kind.lower()}" viewBox="0 0 10 8" refX="9.5" refY="4" markerWidth="8" markerHeight="6.5" orient="auto">'
            f'<path d="M0 0L10 4L0 8L2.5 4z" fill="{colour}"/></marker>'
        )
    yield f'</defs><rect width="{width}" height="{height}" fill="#fff"/>'
    for place, part in enumerate(parts):
        if place:
            y = place * height_of(lanes)
            yield f'<line x1="20" y1="{y}" x2="{width - 20}" y2="{y}" stroke="#e2e8f0"/>'
        yield from part_drawn(part, lanes, place * height_of(lanes), width)
    yield "</svg>"


def main(_, path):
    for line in drawing(*read(path)):
        print(line)
