"""Makes RESULTS.md and growth.svg from dumps in callgrind's format.

report.py WORK OUT [LIBHEIF]: WORK holds files/ and, for each program, counts/PROGRAM/ with its answers.txt and its dumps
count.1, count.2 .. in the order of the answers; LIBHEIF is the version that was measured. Where there is one, its counts
go to OUT/libheif.tsv too, by the file's checksum; where there is none, those in bench/libheif.tsv are taken.
bench/before-q6.tsv has the library's counts before document 02's Q-6: question, file, instructions.
"""

import collections
import hashlib
import pathlib
import re
import sys

HERE = pathlib.Path(__file__).parent

QUESTIONS = ["verdict", "size", "trace", "sources"]
POINTS = 512
SIZES = [16, 32, 64, 128, 256]
ORDERS = ["rising", "falling", "shuffled", "slots"]
ORDER_SAID = {"slots": "IDs of what were few slots, shuffled"}
SAID = {
    "small-369": "document 01's own file",
    "phone-48": "48 tiles, thumbnail, Exif, a quarter turn",
    "tiles-250": "250 tiles, 251 items",
    "fullest": "every limit reached, 16 deep",
    "shared-deep": "128 shared inputs, 16 deep",
    "crops-256": "256 items, each with a crop of half offsets",
    "refused-boxes": "8,189 smallest boxes, no `meta`",
    "refused-meta": "8,150 smallest boxes in `meta`, no `hdlr`",
    "refused-references-first": "some 27,000 references to the first item, the last unlisted",
    "refused-references-last": "the same to the last item",
    "refused-references-falling": "the same, IDs falling",
    "layers-up": "16 layers of 15 overlays, coded items first",
    "layers-down": "the same, coded items last",
    "refused-chain-up": "a chain 255 deep of 8 inputs each",
    "refused-chain-down": "the same, the deepest first",
    "refused-ring": "256 overlays of 8 inputs, all on cycles",
    "refused-body-last": "the fullest, last body wrong",
    "refused-size-last": "the fullest, last canvas wrong",
    "ids-chance-rising": "256 items, IDs far apart by chance, rising",
    "ids-chance-shuffled": "the same in no order",
    "ids-remainder-rising": "256 items, IDs of one remainder of 256, rising",
    "ids-remainder-shuffled": "the same in no order",
    "refused-references-chance": "some 27,000 references in no order, IDs far apart by chance",
    "refused-references-remainder": "the same, IDs of one remainder of 256",
    "ids-slots-rising": "256 items, IDs made to share few of the slots that there were before Q-6, rising",
    "ids-slots-shuffled": "the same in no order",
    "refused-references-slots": "some 27,000 references in no order to them",
    "joined-ways": "a grid's body eight links down, 64 extents a level",
    "joined-pieces": "the longest body, joined byte by byte over eight links",
    "joined-halves": "a long body of pairs of bytes, each half of two pairs a level below",
    "costly-refs-one-slot-129": "129 IDs of what was one slot, one deep row named again and again",
    "costly-ground-hub": "a zigzag chain that grounds little in each sweep, over a hub of 1,800 inputs",
    "costly-cyc-hub-253": "253 `iden` over one hub, each asked whether it is made from itself",
    "costly-trace-opaque": "2,048 overlay inputs, each searched for in a trace",
    "costly-acc-zig16": "depth sweeps over zigzag layers",
}


def plain(function):
    """Without callgrind's mark of a function that calls itself, and the C library's names for one of several versions."""
    function = re.sub(r"'\d+$", "", function)
    return re.sub(r"^(?:__)?mem(set|cpy|move)[_@].*", lambda m: "memset" if m[1] == "set" else "memcpy", function)


def read_dump(path):
    """The total and the cost of each function by itself."""
    total, function, skip = 0, None, False
    own = collections.Counter()
    for line in path.read_text(errors="replace").splitlines():
        if line.startswith("totals: "):
            total = int(line.split()[1])
        elif line.startswith("fn="):
            function = plain(line[3:])
        elif line.startswith("calls="):
            skip = True
        elif re.match(r"^[0-9+*-]", line):
            if not skip:
                own[function] += int(line.split()[1])
            skip = False
    return total, own


class Results:
    def __init__(self, work):
        self.counts, self.profiles, self.answers, self.cases = {}, {}, {}, {}
        for folder in (work / "counts").iterdir():
            self.read_program(folder)
        for line in (work / "files" / "cases.txt").read_text().splitlines():
            name, length, *_ = line.split()
            self.cases[name] = int(length)
        self.before = self.read_before()

    def read_program(self, folder):
        """The first dump is the cost of counting nothing."""
        answers = (folder / "answers.txt").read_text().splitlines()
        assert len(answers) == len(list(folder.glob("count.*"))), f"answers and dumps in {folder} are not as many"
        nothing, _ = read_dump(folder / "count.1")
        for place, line in enumerate(answers, 1):
            label, numbers = line.split(": ")
            total, self.profiles[label] = read_dump(folder / f"count.{place}")
            self.counts[label] = total - nothing
            self.answers[label] = numbers.split()

    def read_before(self):
        lines = (HERE / "before-q6.tsv").read_text().splitlines()
        return {tuple(line.split("\t")[:2]): int(line.split("\t")[2]) for line in lines if not line.startswith("#")}

    def keep_libheif(self, work, path, version):
        """libheif's counts beside the checksums of the files."""
        lines = [f"# libheif {version}"]
        for name in self.cases:
            lines.append(f"{name}\t{checksum(work, name)}\t{self.libheif(name)}\t{self.answers[f'libheif open {name}'][0]}")
        path.write_text("\n".join(lines) + "\n")

    def take_libheif(self, work, path):
        """Those counts again, of files that are the same; its version."""
        head, *lines = path.read_text().splitlines()
        for name, summed, count, code in (line.split("\t") for line in lines):
            if name in self.cases and summed == checksum(work, name):
                self.counts[f"libheif open {name}"] = int(count)
                self.answers[f"libheif open {name}"] = [code]
        return head.removeprefix("# libheif ")

    def proved(self, question, name):
        return self.counts[f"proved {question} {name}"]

    def second(self, question, name):
        return self.counts[f"second {question} {name}"]

    def libheif(self, name):
        return self.counts.get(f"libheif open {name}")

    def seams(self):
        """The files that were asked for points."""
        return [name for name in self.cases if f"proved points {name}" in self.counts]

    def share(self, who, name):
        """What a point costs beside opening the file."""
        return (who("points", name) - who("verdict", name)) / POINTS

    def verdict(self, name):
        answer = self.answers[f"second verdict {name}"]
        return "accepted" if answer[0] == "0" else f"refused {answer[0]}"

    def disagreements(self):
        asked = [(question, name) for name in self.cases for question in QUESTIONS] + [("points", name) for name in self.seams()]
        return [
            (question, name)
            for question, name in asked
            if self.answers[f"proved {question} {name}"] != self.answers[f"second {question} {name}"]
        ]


def checksum(work, name):
    return hashlib.sha256((work / "files" / f"{name}.bin").read_bytes()).hexdigest()[:16]


def row(cells):
    return "| " + " | ".join(str(cell) for cell in cells) + " |\n"


def table(header, rows):
    lines = row(header) + row(["---"] + ["---:"] * (len(header) - 1))
    return lines + "".join(row(r) for r in rows) + "\n"


def said(order):
    return ORDER_SAID.get(order, f"{order} IDs")


def aim(text, kept):
    return f"- {'kept' if kept else 'MISSED'}: {text}\n"


def aims(results):
    text = ""
    measured = [n for n in results.cases]
    over = [(results.proved(q, n) / results.second(q, n), q, n) for n in measured for q in QUESTIONS]
    worst = max(over)
    text += aim(
        f"no more instructions than the second reading: {sum(1 for r, _, _ in over if r <= 1)} of {len(over)} calls; "
        f"the worst is {worst[0]:.2f} times ({worst[1]} of {worst[2]})",
        worst[0] <= 1,
    )
    for name, times in (("phone-48", 40), ("tiles-250", 80)):
        if results.libheif(name):
            ratio = results.libheif(name) / results.proved("verdict", name)
            text += aim(f"{times} times fewer than libheif on {name}: {ratio:.1f} times", ratio >= times)
    per_byte = {n: results.proved("verdict", n) / results.cases[n] for n in measured if results.cases[n] > 1500}
    # Files that were searched out to be costly; every call counts.
    costly = {
        (q, n): results.proved(q, n) / results.cases[n] for n in list(per_byte) if n.startswith("costly-") for q in QUESTIONS
    }
    per_byte = {n: cost for n, cost in per_byte.items() if not n.startswith("costly-")}
    high, low = max(per_byte, key=per_byte.get), min(per_byte, key=per_byte.get)
    text += aim(
        f"at most 40 instructions a byte on every file over 1,500 bytes, verdict: {per_byte[low]:.1f} ({low}) to "
        f"{per_byte[high]:.1f} ({high})",
        per_byte[high] <= 40,
    )
    if costly:
        (question, name), most = max(costly.items(), key=lambda item: item[1])
        text += aim(
            f"the same for files searched out to be costly, any question: {most:.1f} ({question} of {name}); "
            f"{sum(1 for cost in costly.values() if cost > 40)} of {len(costly)} calls are over 40",
            most <= 40,
        )
    return text + growth_aims(results) + before_aims(results) + point_aims(results) + "\n"


def growth_aims(results):
    text = ""
    for order in ORDERS:
        costs = [results.proved("verdict", f"growth-{order}-{size}") for size in SIZES]
        worst = max(b / a for a, b in zip(costs, costs[1:]))
        text += aim(f"twice the items at most 2.2 times the cost, {said(order)}: {worst:.2f} times at most", worst <= 2.2)
    for order in ORDERS[1:]:
        over = [results.proved("verdict", f"growth-{order}-{n}") / results.proved("verdict", f"growth-rising-{n}") for n in SIZES]
        text += aim(f"{said(order)}, at most 1.3 times rising ones: {max(over):.2f} times at most", max(over) <= 1.3)
    return text


def before_aims(results):
    """What document 02's Q-6 was to keep, and to better."""
    text = ""
    for name in ("phone-48", "tiles-250"):
        now, was = results.proved("verdict", name), results.before["verdict", name]
        text += aim(f"{name} no dearer than before Q-6: {now:,}, before {was:,} ({(now / was - 1) * 100:+.2f} %)", now <= was)
    ratio = results.proved("trace", "shared-deep") / results.second("trace", "shared-deep")
    was = results.before["trace", "shared-deep"] / results.second("trace", "shared-deep")
    text += aim(f"a trace of 128 shared inputs at most 1.2 times the second reading: {ratio:.2f} times, before Q-6 {was:.2f}", ratio <= 1.2)
    return text


def point_aims(results):
    text = ""
    for name in results.seams():
        ratio = results.proved("points", name) / results.second("points", name)
        kept, told = ratio <= 1.2, f"{ratio:.3f} times the second reading, at most 1.2 wanted"
        if name == "phone-48":
            share = results.share(results.proved, name)
            kept, told = kept and share <= 400, f"the verdict and {share:.0f} instructions a point, at most 400 wanted; {told}"
        text += aim(f"{POINTS} points of {name}: {told}", kept)
    return text


def main_table(results, names):
    rows = []
    for name in names:
        cells = [f"{name}<br>{SAID.get(name, '')}", f"{results.cases[name]:,}", results.verdict(name)]
        for question in QUESTIONS:
            p, s = results.proved(question, name), results.second(question, name)
            cells.append(f"{p:,}<br>{s:,}<br>{p / s:.2f}")
        cells.append(f"{results.proved('verdict', name) / results.cases[name]:.1f}")
        heif = results.libheif(name)
        if heif:
            code = "" if results.answers[f"libheif open {name}"][0] == "0" else " (refused)"
            cells.append(f"{heif:,}{code}<br>{heif / results.proved('verdict', name):.1f} times")
        else:
            cells.append("-")
        rows.append(cells)
    return table(["file", "bytes", "verdict is"] + QUESTIONS + ["a byte", "libheif opens"], rows)


def points_table(results):
    """512 points at once beside the verdict, one trace, and as many single traces."""
    rows = []
    for name in results.seams():
        cells = [f"{name}<br>{SAID.get(name, '')}"]
        for question in ("verdict", "trace", "points"):
            p, s = results.proved(question, name), results.second(question, name)
            cells.append(f"{p:,}<br>{s:,}<br>{p / s:.2f}")
        p, s = results.share(results.proved, name), results.share(results.second, name)
        cells.append(f"{p:,.0f}<br>{s:,.0f}<br>{p / s:.2f}")
        single = POINTS * results.proved("trace", name)
        cells.append(f"{single:,}<br>{single / results.proved('points', name):.1f} times")
        rows.append(cells)
    return table(["file", "verdict", "one trace", f"{POINTS} points", "a point's share", f"{POINTS} single traces"], rows)


def growth_table(results):
    rows = []
    for size in SIZES:
        cells = [size]
        for order in ORDERS:
            name = f"growth-{order}-{size}"
            p, s = results.proved("verdict", name), results.second("verdict", name)
            cells.append(f"{p:,}<br>{s:,}<br>{p / s:.2f}<br>{results.before['verdict', name]:,}")
        heif = results.libheif(f"growth-rising-{size}")
        cells.append(f"{heif:,}" if heif else "-")
        rows.append(cells)
    return table(["items"] + [said(order) for order in ORDERS] + ["libheif, rising"], rows)


def profile_table(results):
    """Where the proved library spends more than the second reading does in all."""
    rows = []
    for name in results.cases:
        for question in ("verdict", "trace", "sources"):
            p, s = results.proved(question, name), results.second(question, name)
            if p <= s or (question != "verdict" and p < 1.15 * results.proved("verdict", name)):
                continue
            if name.startswith("growth") and not name.endswith("-256"):
                continue
            own = results.profiles[f"proved {question} {name}"].most_common(6)
            spent = ", ".join(f"{function} {cost:,}" for function, cost in own if cost * 100 >= p)
            rows.append([f"{question} {name}", f"{p / s:.2f}", spent])
    return table(["call", "times", "instructions by function, itself"], rows) if rows else "Nowhere.\n\n"


def nice(value):
    return f"{value / 1e6:g} M" if value >= 1e6 else f"{value / 1e3:g} k"


def steps(most):
    """Round numbers up to the most, at most eight."""
    step = 10 ** len(str(most)) // 100
    while most / step > 8:
        step *= 2
    return range(0, most + 1, step)


def panel(at, title, lines):
    """Cost over items, both scales straight, so that cost in step with items is a straight line. A line is its name, colour,
    dashes, width and values; the names stand below in two columns."""
    left, right, top, bottom = at + 56, at + 440, 62, 350
    most = max(max(values) for *_, values in lines)

    def x(size):
        return left + (right - left) * size / 256

    def y(value):
        return bottom - (bottom - top) * value / most

    svg = [f'<text x="{left}" y="{top - 16}" font-weight="bold">{title}</text>']
    for value in steps(most):
        svg.append(f'<line x1="{left}" x2="{right}" y1="{y(value):.1f}" y2="{y(value):.1f}" stroke="#ddd"/>')
        svg.append(f'<text x="{left - 6}" y="{y(value) + 4:.1f}" text-anchor="end">{nice(value)}</text>')
    for size in SIZES[1:]:
        svg.append(f'<text x="{x(size):.1f}" y="{bottom + 18}" text-anchor="middle">{size}</text>')
    for place, (name, colour, dash, wide, values) in enumerate(lines):
        drawn = f'stroke="{colour}" stroke-width="{wide}" stroke-dasharray="{dash or "none"}"'
        points = " ".join(f"{x(size):.1f},{y(value):.1f}" for size, value in zip(SIZES, values))
        svg.append(f'<polyline points="{points}" fill="none" {drawn}/>')
        key, line = left + 200 * (place % 2), bottom + 46 + 18 * (place // 2)
        svg.append(f'<line x1="{key}" x2="{key + 30}" y1="{line}" y2="{line}" {drawn}/>')
        svg.append(f'<text x="{key + 36}" y="{line + 4}">{name}</text>')
    return svg


def chart(results):
    """Before and after Q-6: what it ends, and what it costs where nothing was to be ended."""

    def after(order, who="proved"):
        return [results.counts[f"{who} verdict growth-{order}-{size}"] for size in SIZES]

    def before(order):
        return [results.before["verdict", f"growth-{order}-{size}"] for size in SIZES]

    ended = [
        ("before Q-6", "#c8553d", "6 4", 2, before("slots")),
        ("now", "#c8553d", "", 2, after("slots")),
        ("now, rising IDs", "#1b6ca8", "", 2, after("rising")),
        ("second reading", "#888", "", 1, after("slots", "second")),
    ]
    kept = []
    for order, colour in (("rising", "#1b6ca8"), ("falling", "#2f8f4e"), ("shuffled", "#b07d10")):
        kept.append((f"{order}, before Q-6", colour, "6 4", 2, before(order)))
        kept.append((f"{order}, now", colour, "", 2, after(order)))
    kept.append(("second reading, shuffled", "#888", "", 1, after("shuffled", "second")))
    svg = [
        '<svg xmlns="http://www.w3.org/2000/svg" viewBox="0 0 960 460" font-family="sans-serif" font-size="12">',
        '<rect width="960" height="460" fill="white"/>',
        '<text x="56" y="20">x86-64 instructions of one verdict, over the items of a file</text>',
    ]
    svg += panel(0, "IDs that shared few slots, in no order", ended)
    svg += panel(480, "IDs 1 to n", kept)
    return "\n".join(svg + ["</svg>"]) + "\n"


HEAD = """# Executed instructions

Made by `bench/run`; do not edit. Each number is the x86-64 instructions of one call, counted by callgrind or, on other
processors, by bench/plugin.c in qemu; it is the same in every run. Cells hold the proved library, the second reading
(tests/second/second.c by the kit's own clang at -O3 -march=x86-64) and the proved one as a multiple of the second. Both
take `memset` and `memcpy` from the same C library, held to its plain x86-64 versions. Files are made by bench/files.py;
`stress-*` and `hevc-*` are the conformance folder's, `stress-*` with an `hvcC` where `hvc1` items had none; `costly-*` were
searched out to be costly (../shared/costly).

"""


def main():
    work, out = pathlib.Path(sys.argv[1]), pathlib.Path(sys.argv[2])
    version = sys.argv[3] if len(sys.argv) > 3 else ""
    results = Results(work)
    text = HEAD
    if version:
        text += f"libheif {version} opens the file with heif_context_read_from_memory_without_copy; that call is counted.\n\n"
        results.keep_libheif(work, out / "libheif.tsv", version)
    else:
        version = results.take_libheif(work, HERE / "libheif.tsv")
        text += f"libheif's column is of an earlier run, libheif {version} on the same files (bench/libheif.tsv): as x86-64 code it could not be had here.\n\n"
    wrong = results.disagreements()
    text += f"The two readings gave {'the same answers' if not wrong else 'DIFFERENT answers: ' + str(wrong)}.\n\n"
    text += "## Aims\n\n" + aims(results)
    names = [name for name in results.cases if not name.startswith("growth")]
    text += "## Files\n\n" + main_table(results, names)
    text += f"## {POINTS} points at once\n\nAlong the line from the first pixel to the last. A point's share is what the call takes over the verdict, parted by {POINTS}.\n\n"
    text += points_table(results)
    text += "## Growth\n\nVerdict on a grid in one row; the last number of a cell is the library's before Q-6. ![growth](growth.svg)\n\n" + growth_table(results)
    text += "## Where the proved library is the slower one\n\n" + profile_table(results)
    (out / "RESULTS.md").write_text(text)
    (out / "growth.svg").write_text(chart(results))
    print(aims(results), end="")
    return 1 if wrong else 0


sys.exit(main())
