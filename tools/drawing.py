"""A picture of bundles and what leads from one to another, as SVG: graphviz's, or a plain one without it."""
import html
import re
import shutil
import subprocess

MOST = 2  # names at an edge
SECONDS = 30  # for graphviz
MANY = 300  # edges, above which graphviz is to look less for the best places: it takes minutes otherwise
LESS = ["-Gnslimit=0.5", "-Gnslimit1=0.5", "-Gmclimit=0.1"]
STYLES = {"fragment": "dotted", "bundle": "bold", "package": "solid", "capability": "dashed"}
GAP, HEIGHT, STEP, LETTER = 150, 36, 60, 7.5


def label(wires):
    """What stands at an edge: the first names, and how many more there are."""
    names = [name if kind != "bundle" else "requires" for kind, name in wires]
    return names[:MOST] + [f"and {len(names) - MOST} more"] * (len(names) > MOST)


def kind_of(wires):
    """The kind that an edge is drawn as: the first of these that it has."""
    return next(kind for kind in STYLES if kind in [it[0] for it in wires])


def draw(bundles, edges, mark):
    """The picture of bundles, names by id, and edges, wires by pair. Each has its key, after a mark, as its `id`."""
    program = shutil.which("dot")
    if program:
        try:
            ran = subprocess.run([program, "-Tsvg", *LESS * (len(edges) > MANY)], timeout=SECONDS, check=True,
                                 input=dot(bundles, edges, mark).encode(), stdout=subprocess.PIPE,
                                 stderr=subprocess.DEVNULL)
            return re.sub(r"<title>.*?</title>\n?", "", ran.stdout.decode()[ran.stdout.decode().index("<svg"):])
        except (subprocess.SubprocessError, OSError, ValueError):
            pass
    return plain(bundles, edges, mark)


def quoted(lines):
    return '"' + "\\n".join(it.replace("\\", "\\\\").replace('"', '\\"') for it in lines) + '"'


def dot(bundles, edges, mark):
    yes = ["digraph bundles {", '  rankdir=LR; node [shape=box, style="filled,rounded", fillcolor=white];',
           '  graph [bgcolor=transparent]; node [fontname="sans-serif", fontsize=12];'
           ' edge [fontname="sans-serif", fontsize=10];']
    for it, name in bundles.items():
        yes.append(f'  b{it} [id="{mark}b{it}", label={quoted([f"{it}: {name}"])}];')
    for pair, wires in edges.items():
        start, end = pair.split("-")
        yes.append(f'  b{start} -> b{end} [id="{mark}e{pair}", label={quoted(label(wires))}, '
                   f"style={STYLES[kind_of(wires)]}];")
    return "\n".join(yes) + "\n}\n"


# ---- the plain one

def columns(bundles, edges):
    """The column of each bundle: one to the right of all that lead to it, as far as there is no ring."""
    from_to = {it: [] for it in bundles}
    for pair in edges:
        start, end = pair.split("-")
        from_to[start].append(end)
    order, seen = [], set()
    for root in bundles:  # deepest first, without recursion, since a chain may be long
        waiting = [(root, iter(from_to[root]))] if root not in seen else []
        seen.add(root)
        while waiting:
            below = next((it for it in waiting[-1][1] if it not in seen), None)
            if below is None:
                order.append(waiting.pop()[0])
            else:
                seen.add(below)
                waiting.append((below, iter(from_to[below])))
    place = {it: at for at, it in enumerate(reversed(order))}
    column = dict.fromkeys(bundles, 0)
    for it in place:
        for below in (end for end in from_to[it] if place[end] > place[it]):
            column[below] = max(column[below], column[it] + 1)
    return column


def plain(bundles, edges, mark):
    """Boxes in columns, and curves between them."""
    column, places, x, height = columns(bundles, edges), {}, 10, 0
    for number in range(max(column.values(), default=-1) + 1):
        here = [it for it in bundles if column[it] == number]
        width = max(len(f"{it}: {bundles[it]}") for it in here) * LETTER + 16
        for row, it in enumerate(here):
            places[it] = x, 10 + row * STEP, width
        x, height = x + width + GAP, max(height, len(here) * STEP + 20)
    pieces = [f'<svg width="{x:.0f}pt" height="{height}pt" viewBox="0 0 {x:.0f} {height}" '
              'xmlns="http://www.w3.org/2000/svg">'
              f'<defs><marker id="{mark}tip" viewBox="0 0 8 8" refX="8" refY="4" markerWidth="8" markerHeight="8" '
              'orient="auto"><path d="M0,0 L8,4 L0,8 z"/></marker></defs>']
    pieces += [curve(places, pair, wires, mark) for pair, wires in edges.items()]
    for it, (left, top, width) in places.items():
        pieces.append(f'<g id="{mark}b{it}" class="node"><rect x="{left:.0f}" y="{top}" width="{width:.0f}" '
                      f'height="{HEIGHT}" rx="6" fill="white" stroke="black"/>'
                      f'<text x="{left + width / 2:.0f}" y="{top + 22}" '
                      f'text-anchor="middle" font-size="12">{html.escape(f"{it}: {bundles[it]}")}</text></g>')
    return "\n".join(pieces) + "\n</svg>"


def curve(places, pair, wires, mark):
    start, end = (places[it] for it in pair.split("-"))
    right = end[0] > start[0]
    x1, x2 = (start[0] + start[2], end[0]) if right else (start[0], end[0] + end[2])
    y1, y2, bend = start[1] + HEIGHT / 2, end[1] + HEIGHT / 2, 60 if right else -60
    style = {"dotted": ' stroke-dasharray="2 4"', "dashed": ' stroke-dasharray="6 4"', "bold": ' stroke-width="2.5"'}
    look = style.get(STYLES[kind_of(wires)], "")
    texts = "".join(f'<text x="{(x1 + x2) / 2:.0f}" y="{(y1 + y2) / 2 - 4 + 11 * row:.0f}" text-anchor="middle" '
                    f'font-size="10">{html.escape(it)}</text>' for row, it in enumerate(label(wires)))
    return (f'<g id="{mark}e{pair}" class="edge"><path d="M{x1:.0f},{y1} C{x1 + bend:.0f},{y1} {x2 - bend:.0f},{y2} '
            f'{x2:.0f},{y2}" fill="none" stroke="black" marker-end="url(#{mark}tip)"{look}/>'
            f"{texts}</g>")
