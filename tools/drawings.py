#!/usr/bin/env python3
"""Draws docs/crates.svg, docs/message.svg and docs/throughput.svg.

    tools/drawings.py            writes the files
    tools/drawings.py --check    exits with 1 if a file differs from what would be written

The edges of the first drawing come from crates.txt; an edge that other edges imply is omitted.
CRATES gives each crate its group, its row counted from the bottom, its center and its job. A crate
without an entry is an error, and so is an edge that does not go down. The last drawing shows the
times of bench/RESULTS.md as rates of input.
"""
import math
import pathlib
import re
import sys
from xml.sax.saxutils import escape

TOP = pathlib.Path(__file__).resolve().parent.parent
WIDTH, BOX_WIDTH, BOX_HEIGHT, MARGIN = 1000, 172, 52, 20
TOPS = [MARGIN + 86 * (10 - row) for row in range(11)]  # the upper edge of each row's boxes
FONT = "'DejaVu Sans', Verdana, Helvetica, Arial, sans-serif"
MONO = "'DejaVu Sans Mono', Menlo, Consolas, monospace"
# Rows of the tables of times and of instructions: job, data, and the seconds or the ratio.
TIME = re.compile(r"^\| `(\S+)` (\S+) \| ([\d.]+) s \| ([\d.]+) s \|", re.M)
RATIO = re.compile(r"^\| `(\S+)` (\S+) \| [\d.]+ \| [\d.]+ \| ([\d.]+) \|", re.M)
INK, FAINT, LINE, FAULT = "#1f2328", "#57606a", "#6e7781", "#cf222e"

# The fill, the border and the label of each group, in the order of the legend.
GROUPS = {
    "jobs": ("#fbefff", "#8250df", "jobs and the command"),
    "text": ("#fff1e5", "#bc4c00", "JSON, CSV, dates and times"),
    "streams": ("#fff8c5", "#9a6700", "streams"),
    "batches": ("#dafbe1", "#1a7f37", "messages and batches"),
    "metadata": ("#ddf4ff", "#0969da", "FlatBuffers and metadata"),
    "values": ("#f3f4f6", "#57606a", "types and values"),
    "tests": ("#ffffff", "#8c959f", "tests: no crate uses them"),
}

CRATES = {
    "arrowstream": ("jobs", 10, 430, "the command"),
    "job_command": ("jobs", 9, 430, "jobs and their exits"),
    "arrowstream_c": ("streams", 9, 890, "the library for C"),
    "job_rewrite": ("jobs", 8, 110, "stream to stream"),
    "job_from_csv": ("jobs", 8, 292, "CSV to stream"),
    "ipc_stream_session": ("streams", 8, 890, "streams as values"),
    "ipc_stream": ("streams", 7, 130, "writer"),
    "job_explain": ("jobs", 7, 350, "why it is refused"),
    "job_print": ("jobs", 7, 540, "stream to JSON, CSV"),
    "job_arguments": ("jobs", 8, 625, "words of a command"),
    "ipc_text": ("text", 7, 742, "re-exports for users"),
    "ipc_dict": ("streams", 6, 110, "dictionaries to send"),
    "ipc_conform": ("batches", 6, 292, "whether rows fit"),
    "ipc_stream_read": ("streams", 6, 478, "reader and decoder"),
    "ipc_text_csv": ("text", 6, 660, "CSV both ways"),
    "ipc_text_json": ("text", 6, 870, "JSON of schema, rows"),
    "ipc_encode": ("batches", 5, 110, "rows to buffers"),
    "ipc_dict_read": ("batches", 5, 365, "dictionaries in force"),
    "ipc_text_temporal": ("text", 5, 780, "dates, times, digits"),
    "ipc_column": ("batches", 4, 230, "buffers to columns"),
    "ipc_frame": ("batches", 4, 450, "bytes to messages"),
    "ipc_meta": ("metadata", 3, 270, "metadata both ways"),
    "ipc_device": ("streams", 3, 500, "sources and sinks"),
    "job_expect": ("jobs", 2, 870, "compares schemas"),
    "ipc_build": ("metadata", 2, 210, "writes FlatBuffers"),
    "ipc_flat": ("metadata", 1, 210, "reads FlatBuffers"),
    "ipc_model": ("values", 1, 540, "types, values, faults"),
    "ipc_scalar": ("metadata", 0, 210, "numbers and bits"),
    "ipc_items": ("values", 0, 440, "lists and texts"),
    "test_layers": ("tests", 1, 736, "lower layers"),
    "test_streams": ("tests", 1, 888, "streams"),
    "test_texts": ("tests", 0, 736, "JSON and CSV"),
    "workbench": ("tests", 0, 888, "cases, measures"),
}

# Each part of a message: its height, its first byte, its bytes, what it is, who reads it, and the
# decision at its last byte with the faults that may come instead. A bar begins a new line.
PARTS = [
    (74, "0", "ff ff ff ff", "continuation mark: 4 bytes", "ipc_frame",
     "a message or the end mark begins here", "F1"),
    (74, "4", "m", "int32: size of the metadata", "ipc_frame",
     "m bytes of metadata follow; 0 is the end mark", "F2, F3; F10: end mark before the schema"),
    (104, "8", "metadata", "FlatBuffer, padded to 8: m bytes", "ipc_flat: tables|ipc_meta: head",
     "a schema, dictionary batch or record batch;|b bytes of body follow", "F5 to F9, F12 to F24"),
    (134, "8 + m", "body", "buffers, padded to 8: b bytes",
     "ipc_column: buffers|ipc_stream_read: state",
     "the schema is in force, a dictionary is set,|or a batch is read", "F10, F11, F25 to F34"),
]


def read_edges():
    """Each crate of crates.txt with the crates that it uses, without those that others imply."""
    lines = (TOP / "crates.txt").read_text(encoding="utf-8").splitlines()
    pairs = [line.split(":") for line in lines if line and not line.startswith("#")]
    names = [head.split()[0] for head, _ in pairs]
    uses = {head.split()[0]: [it for it in used.split() if it in names] for head, used in pairs}

    def below(name):
        return set(uses[name]).union(*map(below, uses[name]))

    implied = {name: set().union(*map(below, used)) for name, used in uses.items()}
    return {name: [it for it in uses[name] if it not in implied[name]] for name in names}


def text(x, y, words, size=13, color=INK, weight="normal", anchor="start", font=FONT):
    style = f'font-family="{font}" font-size="{size}" font-weight="{weight}" fill="{color}"'
    return f'<text x="{x}" y="{y}" {style} text-anchor="{anchor}">{escape(words)}</text>'


def rectangle(x, y, width, height, fill, border, extra='rx="7"'):
    place = f'x="{x}" y="{y}" width="{width}" height="{height}"'
    return f'<rect {place} fill="{fill}" stroke="{border}" stroke-width="1.5" {extra}/>'


def line(x, y, to_x, to_y, extra):
    place = f'x1="{x}" y1="{y}" x2="{to_x}" y2="{to_y}"'
    return f'<line {place} stroke="{LINE}" stroke-width="1.5" {extra}/>'


def svg(height, title, parts):
    """A drawing on a light background, which is readable in dark mode too."""
    head = f'<svg xmlns="http://www.w3.org/2000/svg" viewBox="0 0 {WIDTH} {height}" role="img">'
    size = 'viewBox="0 0 10 10" refX="9" refY="5" markerWidth="7" markerHeight="7" orient="auto"'
    arrow = f'<marker id="arrow" {size}><path d="M0 1 L10 5 L0 9 z" fill="{LINE}"/></marker>'
    back = rectangle(1, 1, WIDTH - 2, height - 2, "#ffffff", "#d0d7de", 'rx="10"')
    return "\n".join([head, f"<title>{title}</title>", arrow, back, *parts, "</svg>", ""])


def crate_box(name):
    group, row, x, job = CRATES[name]
    width, y = 138 if group == "tests" else BOX_WIDTH, TOPS[row]
    yield rectangle(x - width // 2, y, width, BOX_HEIGHT, *GROUPS[group][:2])
    yield text(x, y + 22, name, 15, weight="bold", anchor="middle")
    yield text(x, y + 41, job, 13, FAINT, anchor="middle")


def crate_edge(upper, lower):
    (_, row, x, _), (_, below, to, _) = CRATES[upper], CRATES[lower]
    if row <= below:
        sys.exit(f"drawings: the edge from {upper} to {lower} does not go down")
    shift = max(-60, min(60, (to - x) // 5))
    ends = (x + shift, TOPS[row] + BOX_HEIGHT, to - shift // 2, TOPS[below] - 2)
    return line(*ends, 'marker-end="url(#arrow)"')


def legend(x, y):
    yield text(x, y + 12, "An arrow means “uses”.", 14, weight="bold")
    yield text(x, y + 31, "Implied arrows are omitted.", 13, FAINT)
    for number, (fill, border, label) in enumerate(list(GROUPS.values())[:-1]):
        yield rectangle(x, y + 42 + 20 * number, 16, 12, fill, border, 'rx="3"')
        yield text(x + 26, y + 53 + 20 * number, label)


def draw_crates():
    edges = read_edges()
    if set(edges) != set(CRATES):
        sys.exit(f"drawings: CRATES and crates.txt differ: {sorted(set(edges) ^ set(CRATES))}")
    parts = [crate_edge(it, to) for it in edges for to in edges[it] if CRATES[it][0] != "tests"]
    dashes = 'stroke-dasharray="5"'
    parts.append(rectangle(656, TOPS[1] - 30, 312, 178, "#f6f8fa", "#8c959f", dashes))
    parts.append(text(812, TOPS[1] - 10, GROUPS["tests"][2], 13, FAINT, anchor="middle"))
    parts += [it for name in CRATES for it in crate_box(name)]
    parts += legend(MARGIN + 10, MARGIN + 4)
    return svg(TOPS[0] + BOX_HEIGHT + MARGIN, "The crates of arrowstream", parts)


def message_part(y, number, part):
    height, start, content, what, readers, decision, faults = part
    group, middle, end = "metadata" if number == 3 else "batches", y + height // 2, y + height
    yield text(84, y + 14, start, 13, FAINT, anchor="end")
    yield rectangle(96, y, 290, height, *GROUPS[group][:2], 'rx="0"')
    yield text(241, middle - 2, content, 16, weight="bold", anchor="middle", font=MONO)
    yield text(241, middle + 18, what, 13, FAINT, anchor="middle")
    for at, words in enumerate(readers.split("|")):
        yield text(404, middle + 5 + 20 * at - 10 * readers.count("|"), words)
    yield line(96, end, 556, end, 'stroke-dasharray="3 3"')
    yield f'<circle cx="570" cy="{end}" r="13" fill="{INK}"/>'
    yield text(570, end + 5, str(number), 14, "#ffffff", "bold", "middle")
    for at, words in enumerate(decision.split("|")):
        yield text(596, end - 8 - 19 * (decision.count("|") - at), words)
    yield text(596, end + 14, faults, 13, FAULT)


def draw_message():
    heads = ((96, "bytes"), (404, "read by"), (596, "decision at the last byte, or fault"))
    y, parts = 56, [text(x, 36, words, 14, weight="bold") for x, words in heads]
    for number, part in enumerate(PARTS, 1):
        parts += message_part(y, number, part)
        y += part[0]
    parts.append(text(84, y + 14, "8 + m + b", 13, FAINT, anchor="end"))
    parts.append(text(96, y + 42, "further messages, then the end-of-stream mark", 13, FAINT))
    parts.append(line(241, y + 50, 241, y + 76, 'marker-end="url(#arrow)"'))
    for x, words in ((96, "ff ff ff ff"), (241, "00 00 00 00")):
        parts.append(rectangle(x, y + 82, 145, 44, *GROUPS["batches"][:2], 'rx="0"'))
        parts.append(text(x + 72, y + 109, words, 16, weight="bold", anchor="middle", font=MONO))
    parts += [text(404, y + 109, "ipc_frame"), text(596, y + 100, "the end: no later byte is read")]
    parts.append(text(596, y + 120, "F4: input ends in a message or before the schema", 13, FAULT))
    return svg(y + 146, "An encapsulated message", parts)


def read_rates():
    """For each job and its data the rates of the two programs in GB/s, of 2^28 bytes of input, and
    the ratio of their instructions."""
    page = (TOP / "bench/RESULTS.md").read_text(encoding="utf-8")
    ratios = {(job, data): ratio for job, data, ratio in RATIO.findall(page)}
    for job, data, *seconds in TIME.findall(page):
        yield job, data, [2**28 / 1e9 / float(it) for it in seconds], ratios[job, data]


def place_of(rate):
    """The place of a rate, on a scale of logarithms."""
    return round(190 + 280 * (math.log10(rate) + 1))


def rate_row(y, job, data, rates, ratio):
    """The two rates of a workload, as a full and an empty dot, and as numbers."""
    ours, plain = map(place_of, rates)
    yield text(170, y + 5, f"{job} {data}", anchor="end")
    yield line(ours, y, plain, y, "")
    for x, fill in ((plain, "#ffffff"), (ours, GROUPS["jobs"][1])):
        yield f'<circle cx="{x}" cy="{y}" r="6" fill="{fill}" stroke="{GROUPS["jobs"][1]}"/>'
    for x, number in ((800, f"{rates[0]:.2f}"), (864, f"{rates[1]:.2f}"), (970, ratio)):
        yield text(x, y + 5, number, anchor="end")


def draw_throughput():
    y, previous, rows = 70, None, []
    for job, data, rates, ratio in read_rates():
        y += 24 if job == previous else 34
        rows += rate_row(y, job, data, rates, ratio)
        previous = job
    scale = [text(190, 34, "GB of input in a second", 14, weight="bold")]
    for x, words in ((800, "ours"), (864, "plain"), (970, "instructions")):
        scale.append(text(x, 61, words, weight="bold", anchor="end"))
    scale.append(text(970, 78, "ours / plain", 12, FAINT, anchor="end"))
    for x, fill, words in ((197, GROUPS["jobs"][1], "arrowstream"),
                           (310, "#ffffff", "a plain Rust program for the same jobs")):
        scale.append(f'<circle cx="{x}" cy="56" r="6" fill="{fill}" stroke="{GROUPS["jobs"][1]}"/>')
        scale.append(text(x + 14, 61, words))
    for rate in ("0.1", "0.3", "1", "3", "10"):
        x = place_of(float(rate))
        scale.append(line(x, 84, x, y + 14, 'stroke-dasharray="2 5"'))
        scale.append(text(x, y + 34, rate, 13, FAINT, anchor="middle"))
    title = "Rates of the command and of a plain Rust program"
    return svg(y + 50, title, scale + rows)


def main(words):
    stale = 0
    drawings = {"crates": draw_crates, "message": draw_message, "throughput": draw_throughput}
    for name, draw in drawings.items():
        path, drawn = TOP / "docs" / f"{name}.svg", draw()
        if "--check" not in words:
            path.write_text(drawn, encoding="utf-8")
        elif not path.is_file() or path.read_text(encoding="utf-8") != drawn:
            print(f"docs/{name}.svg is stale: run tools/drawings.py")
            stale = 1
    return stale


if __name__ == "__main__":
    sys.exit(main(sys.argv[1:]))
