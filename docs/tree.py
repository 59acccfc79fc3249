#!/usr/bin/env python3
"""Draws docs/tree.svg: nodes 0 to 3, the first leaf and the second one of a protected file, and where keys and tags stand.

Run it at the top of the repository: python3 docs/tree.py > docs/tree.svg
The numbers and places come from the formulas of docs/FORMAT.md.
"""


def data_place(d):
    return 2 + d + d // 96


def mht_place(m):
    return 1 + 97 * m


def entry_of(k):
    """The parent of node k, and the place of its entry there."""
    m, rest = divmod(k - 1, 97)
    if rest == 0:
        return mht_place((m - 1) // 32), 96 + (m - 1) % 32
    return mht_place(m), rest - 1


def content_of(d):
    return f"content bytes {3072 + 4096 * d} to {3072 + 4096 * d + 4095}"


ROW, WIDTH, LEFT, ENTRY = 46, 390, 20, 300
parts = []


def text(x, y, words, size=13, anchor="start", style=""):
    parts.append(f'<text x="{x}" y="{y}" font-size="{size}" text-anchor="{anchor}" {style}>{words}</text>')


def box(x, y, width, height, fill):
    parts.append(f'<rect x="{x}" y="{y}" width="{width}" height="{height}" fill="{fill}" stroke="#333"/>')


def node(y, k, name, what, fill):
    box(LEFT, y, WIDTH, ROW, fill)
    text(LEFT + 10, y + 19, f"node {k}: {name}", 14, style='font-weight="bold"')
    text(LEFT + 10, y + 37, what)
    text(LEFT + WIDTH - 8, y + 19, f"byte {4096 * k}", 11, "end", 'fill="#666"')


def entry(y, k):
    """A box beside the parent for the key and the tag of node k."""
    parent, place = entry_of(k)
    box(LEFT + WIDTH + 60, y, ENTRY, 26, "#fff6d8")
    text(LEFT + WIDTH + 70, y + 17, f"entry {place} of node {parent}: key and tag of node {k}", 12)
    return LEFT + WIDTH + 60 + ENTRY, y + 13


def arrow(start, y, rank):
    """From an entry to the node that it opens."""
    x, from_y = start
    bend = x + 16 + 14 * rank
    parts.append(
        f'<path d="M {x} {from_y} H {bend} V {y} H {LEFT + WIDTH + 4}" fill="none" stroke="#888" marker-end="url(#tip)"/>'
    )


def gap(y, words):
    text(LEFT + 10, y, words, 13, style='fill="#666"')


def draw():
    rows = {}
    y = 20
    rows[0] = y
    node(y, 0, "metadata", "path, size, content bytes 0 to 3071", "#e6f0fa")
    box(LEFT + WIDTH + 60, y + 10, ENTRY, 26, "#fff6d8")
    text(LEFT + WIDTH + 70, y + 27, f"key and tag of the root, node {mht_place(0)}", 12)
    root = (LEFT + WIDTH + 60 + ENTRY, y + 23)
    y += ROW + 24
    rows[1] = y
    node(y, mht_place(0), "hash-tree node 0, root and leaf", "128 entries of a key and a tag", "#e8f5e4")
    entries = []
    shown = [data_place(0), data_place(1), mht_place(1)]
    for i, k in enumerate(shown):
        entries.append((k, entry(y + 20 + 34 * i, k)))
    y += 136
    for d in (0, 1):
        k = data_place(d)
        rows[k] = y
        node(y, k, f"data node {d}", content_of(d), "#f7ece8")
        y += ROW + 20
    gap(y + 6, f"nodes {data_place(2)} to {data_place(95)}: data nodes 2 to 95")
    y += 24
    k = mht_place(1)
    rows[k] = y
    node(y, k, "hash-tree node 1, a leaf", "entries 0 to 95: data nodes 96 to 191", "#e8f5e4")
    last = data_place(96)
    entries.append((last, entry(y + 20, last)))
    y += ROW + 24
    rows[last] = y
    node(y, last, "data node 96", content_of(96), "#f7ece8")
    y += ROW + 20
    arrow(root, rows[1] + 10, 0)
    for rank, (k, start) in enumerate(entries):
        arrow(start, rows[k] + 10, len(entries) - rank)
    return y


height = draw()
print(
    f'<svg xmlns="http://www.w3.org/2000/svg" width="880" height="{height}" '
    'font-family="sans-serif" role="img" aria-label="The tree of a protected file">'
)
print('<defs><marker id="tip" markerWidth="8" markerHeight="8" refX="7" refY="4" orient="auto">')
print('<path d="M0,0 L8,4 L0,8 z" fill="#888"/></marker></defs>')
print('<rect width="100%" height="100%" fill="white"/>')
print("\n".join(parts))
print("</svg>")
