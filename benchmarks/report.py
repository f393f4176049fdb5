"""Tables, a picture and comparisons from what the driver printed: run.sh and guard call it."""

import csv
import math
import re
import statistics
import subprocess
import sys
from pathlib import Path

# The proved layer over a `Table` and over a `LargeTable`, and the plain programs.
PROGRAMS = ["proved", "large", "map", "vectors", "records"]
NAMES = {"proved": "table", "large": "large table", "map": "map", "vectors": "vectors", "records": "records"}
# As multiples of which programs those of the proved layer are printed.
COMPARED = [("proved", "map"), ("proved", "vectors"), ("proved", "records"), ("large", "map"), ("large", "records")]
TO_OTHERS = ["to map", "to vectors", "to records", "large to map", "to records"]

# The rows of operations and lines that are printed, in order.
PAGE = [
    f"{pattern} {what}"
    for pattern in ("event", "pubsub", "rr")
    for what in ("create", "open", "close", "last close", "create with 4 attributes", "open with 4 attributes")
] + ["line", "line event", "line pubsub", "line rr", "mixed line", "mix with peers"]
# The rows of which docs/PERFORMANCE.md has most, beside forms and standing services.
SHORT = PAGE[:6] + [f"{pattern} {what}" for pattern in ("pubsub", "rr") for what in ("create", "open", "last close")]
SHORT += PAGE[18:]
FORMS = [f"{what} {pattern}{more}" for pattern in ("event", "pubsub", "rr") for what in ("encode", "decode")
         for more in ("", " with 4 attributes")]
BESIDE = ["creates by node 1", "open and close by node 2", "open and close by node 0",
          "create and close beside", "list"]
# What the parts beside standing services are in the picture and on the page.
TITLES = {
    "creates by node 1": "a create, from the first to the last of them",
    "open and close by node 2": "an open with its close, by a later node",
    "open and close by node 0": "an open with its close, by an earlier node",
    "create and close beside": "a create with its close, beside all",
}

# By how much a part may differ from what is stored, before guard names it: as a share, and in instructions of all its
# operations, of which an allocation more or less takes some.
ALLOWED = 0.03
ALLOWED_IN_ALL = 2000


def table(head, rows):
    """A table in Markdown."""
    print("| " + " | ".join(head) + " |")
    print("|" + "---|" * len(head))
    for row in rows:
        print("| " + " | ".join(row) + " |")
    print()


def read_times(folder):
    """Of each case, standing services and program the times of one, in nanoseconds, a start each."""
    times, units = {}, {}
    for path in sorted(folder.glob("times-*.csv")):
        for row in csv.DictReader(path.open()):
            case = row["case"], int(row["standing"])
            units[case] = row["unit"]
            one = float(row["nanoseconds"]) / max(1, int(row["count"]))
            times.setdefault(case, {}).setdefault(row["program"], []).append(one)
    return times, units


def spread(values):
    """How far the least and the greatest value are apart, as a part of the median."""
    return (max(values) - min(values)) / statistics.median(values)


def write_results(path, times, units):
    with path.open("w", newline="") as file:
        out = csv.writer(file, lineterminator="\n")
        out.writerow(["case", "standing", "unit", "program", "starts", "least", "median", "greatest"])
        for (case, standing), programs in times.items():
            for program, values in sorted(programs.items(), key=lambda item: PROGRAMS.index(item[0])):
                numbers = min(values), statistics.median(values), max(values)
                out.writerow([case, standing, units[case, standing], program, len(values)]
                             + [f"{number:.3f}" for number in numbers])


def ratio_of_times(programs, one, other):
    """A program's times as multiples of another's: the median over the starts."""
    return statistics.median(first / second for first, second in zip(programs[one], programs[other]))


def multiple(number):
    """Two digits after the point, and none where there are three before it."""
    return f"{number:.2f}" if number < 100 else f"{number:.0f}"


def time_row(label, programs, scale, digits):
    """The medians, their greatest spread, and the medians of the ratios."""
    medians = [statistics.median(programs[program]) for program in PROGRAMS]
    worst = max(spread(programs[program]) for program in PROGRAMS)
    return (label + [f"{scale(median):.{digits}f}" for median in medians] + [f"{100 * worst:.0f} %"]
            + [multiple(ratio_of_times(programs, *pair)) for pair in COMPARED])


def print_times(times):
    head = [NAMES[program] for program in PROGRAMS] + ["spread"] + TO_OTHERS
    print("Microseconds of processor time for one, medians of the starts:\n")
    table(["part"] + head,
          [time_row([case], times[case, 0], lambda one: one / 1000, 2) for case in PAGE if (case, 0) in times])
    print("Megabytes of forms a second:\n")
    table(["part"] + head,
          [time_row([case], times[case, 0], lambda one: 1000 / one, 0) for case in FORMS if (case, 0) in times])
    print("Microseconds for one, beside standing services:\n")
    numbers = sorted({standing for case, standing in times if case in BESIDE})
    table(["part", "standing"] + head,
          [time_row([case, f"{standing:,}"], times[case, standing], lambda one: one / 1000, 2)
           for standing in numbers for case in BESIDE])


def print_peaks(path):
    peaks = {}
    for program, number, peak, _ in csv.reader(path.open()):
        peaks[program, int(number)] = int(peak)
    print("Bytes of memory at the peak for each standing service:\n")
    table(["standing"] + [NAMES[program] for program in PROGRAMS],
          [[f"{number:,}"] + [f"{peaks[program, number] / number:,.0f}" for program in PROGRAMS]
           for number in sorted({number for _, number in peaks})])


# The picture: four panels, each with a curve for each program.
COLOURS = {"proved": "#0b5394", "large": "#c2185b", "map": "#b45309", "vectors": "#2f7d32", "records": "#8e24aa"}
DASHES = {"proved": "", "large": "", "map": "7 4", "vectors": "2 3", "records": "10 3 2 3"}
WIDTH, HEIGHT, PANEL_WIDTH, PANEL_HEIGHT = 960, 700, 350, 215


class Panel:
    """One part's instructions over the number of standing services, both in logarithms."""

    def __init__(self, left, top, numbers, values):
        self.left, self.top = left, top
        self.low_x, self.high_x = math.log10(numbers[0]), math.log10(numbers[-1])
        self.low_y = math.floor(math.log10(min(values)))
        self.high_y = max(math.ceil(math.log10(max(values))), self.low_y + 1)

    def x(self, number):
        return self.left + (math.log10(number) - self.low_x) / max(self.high_x - self.low_x, 1e-9) * PANEL_WIDTH

    def y(self, value):
        return self.top + (self.high_y - math.log10(value)) / (self.high_y - self.low_y) * PANEL_HEIGHT

    def frame(self, title, numbers):
        yield f'<text class="title" x="{self.left}" y="{self.top - 12}">{title}</text>'
        for power in range(self.low_y, self.high_y + 1):
            y = self.y(10 ** power)
            yield f'<line class="grid" x1="{self.left}" y1="{y:.1f}" x2="{self.left + PANEL_WIDTH}" y2="{y:.1f}"/>'
            yield f'<text class="y" x="{self.left - 8}" y="{y + 4:.1f}">{10 ** power:,}</text>'
        for number in numbers:
            x = self.x(number)
            yield f'<line class="grid" x1="{x:.1f}" y1="{self.top}" x2="{x:.1f}" y2="{self.top + PANEL_HEIGHT}"/>'
            yield (f'<text class="x" x="{x:.1f}" y="{self.top + PANEL_HEIGHT + 18}">'
                   f'{number:,}</text>')

    def curve(self, program, points):
        colour, dash = COLOURS[program], DASHES[program]
        path = " ".join(f"{self.x(number):.1f},{self.y(value):.1f}" for number, value in points)
        yield (f'<polyline points="{path}" fill="none" stroke="{colour}" stroke-width="2" '
               f'stroke-dasharray="{dash}"/>')
        for number, value in points:
            yield f'<circle cx="{self.x(number):.1f}" cy="{self.y(value):.1f}" r="3" fill="{colour}"/>'


def write_picture(path, counted):
    numbers = sorted({standing for case, standing in counted if case in TITLES})
    if not numbers:
        return
    lines = [
        f'<svg xmlns="http://www.w3.org/2000/svg" viewBox="0 0 {WIDTH} {HEIGHT}" width="{WIDTH}" height="{HEIGHT}" '
        'font-family="sans-serif" font-size="12">',
        "<style>.grid { stroke: #d4d4d4 } .title { font-weight: bold; font-size: 13px } "
        ".x { text-anchor: middle; fill: #444 } .y { text-anchor: end; fill: #444 }</style>",
        f'<rect width="{WIDTH}" height="{HEIGHT}" fill="white"/>',
        '<text x="80" y="30" font-size="15">Instructions for one, by the number of standing services</text>',
    ]
    for index, program in enumerate(PROGRAMS):
        x = 80 + 160 * index
        lines.append(f'<line x1="{x}" y1="52" x2="{x + 34}" y2="52" stroke="{COLOURS[program]}" stroke-width="2" '
                     f'stroke-dasharray="{DASHES[program]}"/>')
        lines.append(f'<circle cx="{x + 17}" cy="52" r="3" fill="{COLOURS[program]}"/>')
        lines.append(f'<text x="{x + 42}" y="56">{NAMES[program]}</text>')
    values = [value for case in TITLES for number in numbers for value in counted[case, number].values()]
    for index, (case, title) in enumerate(TITLES.items()):
        left, top = 80 + (index % 2) * 470, 105 + (index // 2) * 300
        panel = Panel(left, top, numbers, values)
        lines.extend(panel.frame(title.capitalize(), numbers))
        for program in PROGRAMS:
            points = [(number, counted[case, number][program]) for number in numbers if program in counted[case, number]]
            lines.extend(panel.curve(program, points))
        lines.append(f'<text class="x" x="{left + PANEL_WIDTH / 2}" y="{top + PANEL_HEIGHT + 38}">'
                     "standing services</text>")
    lines.append("</svg>")
    path.write_text("\n".join(lines) + "\n")


def report_times(folder, results):
    times, units = read_times(folder)
    write_results(results, times, units)
    print_times(times)


# Instructions, by the functions in which they were spent.
GROUPS = [
    ("SHA-1", re.compile(r"sha1", re.I)),
    ("copies and zeros", re.compile(r"^_*mem(cpy|move|set|pcpy)")),
    ("memory", re.compile(r"malloc|realloc|free|calloc|__rd?l?_|rattle_alloc|rattle_dealloc|unlink_chunk")),
    ("comparisons", re.compile(r"^_*(memcmp|bcmp)|cmp")),
]


def group_of(function):
    for name, pattern in GROUPS:
        if pattern.search(function):
            return name
    return "the rest"


# By this the memory allocator tidies up now and then, in whatever part that happens. Neither it nor what it calls counts.
TIDYING = "malloc_consolidate"


def costs_of(path, of_instructions=False):
    """Each cost of a section, with its function and, where single instructions were counted, its address."""
    line_of = r"0x([0-9a-f]+) \d+ (\d+)\s*$" if of_instructions else r"()[+\-*]?\d* (\d+)\s*$"
    function, is_call = "", False
    for line in path.open():
        if line.startswith("fn="):
            function = line[3:].strip()
        elif line.startswith("calls="):
            is_call = True
        else:
            number = re.match(line_of, line)
            if number:
                cost = int(number.group(2))
                if not is_call and function != TIDYING:
                    yield function, cost, number.group(1)
                # What it calls stands by itself too, so it is taken out again.
                elif is_call and function == TIDYING:
                    yield function, -cost, ""
                is_call = False


def sections_of(folder, program):
    """Of each section of a program's run its part, if it is one, and the file of what it cost."""
    counts = folder / f"counts-{program}"
    lines = (counts / "sections").read_text().splitlines()
    sections = [line for line in lines if not line.startswith("answers,")]
    for index, section in enumerate(sections, 1):
        if section != "-":
            case, standing, unit, count = section.rsplit(",", 3)
            yield (case, int(standing)), unit, float(count), counts / f"out.{index}"


def read_instructions(folder, program):
    """Of each part the instructions of one, those by groups, the unit, and how many there were."""
    sums = {}
    for part, unit, count, path in sections_of(folder, program):
        entry = sums.setdefault(part, [0, 0, {}, unit])
        entry[1] += count
        for function, cost, _ in costs_of(path):
            group = group_of(function)
            entry[0] += cost
            entry[2][group] = entry[2].get(group, 0) + cost
    return {part: (total / count, {group: cost / count for group, cost in costs.items()}, unit, count)
            for part, (total, count, costs, unit) in sums.items()}


def other_answers(folder):
    """The cases in which a program answered otherwise than the first one."""
    answers = {}
    for program in PROGRAMS:
        for line in (folder / f"counts-{program}" / "sections").read_text().splitlines():
            if line.startswith("answers,"):
                case, answer = line.rsplit(",", 1)
                answers.setdefault(case, {})[program] = answer
    return [f"{case}: {programs}" for case, programs in answers.items() if len(set(programs.values())) > 1]


def compared(counts):
    """Of one part, the multiples that are printed."""
    return [multiple(counts[one] / counts[other]) if one in counts and other in counts else ""
            for one, other in COMPARED]


def report_instructions(folder, stored, picture):
    differing = other_answers(folder)
    if differing:
        print("the programs gave different answers:", *differing, sep="\n", file=sys.stderr)
        return 1
    counts = {program: read_instructions(folder, program) for program in PROGRAMS}
    units = {part: unit for part, (_, _, unit, _) in counts["proved"].items()}
    counted = {part: {program: counts[program][part][0] for program in PROGRAMS if part in counts[program]}
               for part in units}
    with stored.open("w", newline="") as file:
        out = csv.writer(file, lineterminator="\n")
        out.writerow(["case", "standing", "unit"] + PROGRAMS)
        for part, numbers in counted.items():
            out.writerow([*part, units[part]]
                         + [f"{numbers[program]:.3f}" if program in numbers else "" for program in PROGRAMS])
    write_picture(picture, counted)
    rows = []
    for part, numbers in counted.items():
        digits = 1 if units[part] == "byte" else 0
        label = f"{part[0]}, a byte" if units[part] == "byte" else part[0]
        rows.append([label, f"{part[1]:,}"]
                    + [f"{numbers[program]:,.{digits}f}" if program in numbers else "" for program in PROGRAMS]
                    + compared(numbers))
    print("Instructions for one:\n")
    table(["part", "standing"] + [NAMES[program] for program in PROGRAMS] + TO_OTHERS, rows)
    print_groups(counts)
    print_functions(folder)
    print_peaks(folder / "peaks.csv")
    return 0


def print_groups(counts):
    groups = [name for name, _ in GROUPS] + ["the rest"]
    rows = []
    for part in [("event create", 0), ("event open", 0), ("event last close", 0), ("rr open", 0),
                 ("event open with 4 attributes", 0), ("line", 0), ("create and close beside", 1000)]:
        for program in PROGRAMS:
            if part in counts[program]:
                total, costs, _, _ = counts[program][part]
                rows.append([part[0], NAMES[program], f"{total:,.0f}"]
                            + [f"{costs.get(group, 0):,.0f}" for group in groups])
    print("Where they are spent:\n")
    table(["part", "program", "all"] + groups, rows)


# Of these parts the large table's instructions are printed by function, beside the most services.
BY_FUNCTION = list(TITLES)


def functions_of(folder, program, standing):
    """Of each of these parts the instructions of one, by function."""
    found = {}
    for part, _, count, path in sections_of(folder, program):
        if part[0] in BY_FUNCTION and part[1] == standing:
            costs = found.setdefault(part[0], {})
            for function, cost, _ in costs_of(path):
                costs[function] = costs.get(function, 0) + cost / count
    return found


def print_functions(folder):
    standing = max((part[1] for part, *_ in sections_of(folder, "large")), default=0)
    for program in ("large", "map"):
        for case, costs in functions_of(folder, program, standing).items():
            whole = sum(costs.values())
            print(f"{NAMES[program]}: {case}, beside {standing:,}: {whole:,.0f} instructions for one, by function:\n")
            most = sorted(costs.items(), key=lambda item: -item[1])[:16]
            table(["function", "instructions", "of all"],
                  [[f"`{function}`", f"{cost:,.0f}", f"{100 * cost / whole:.0f} %"] for function, cost in most])


# What is explained: what of these parts a program takes more than another one.
EXPLAINED = {
    ("proved", "vectors"): [
        ("event create", 0), ("event open", 0), ("event last close", 0), ("rr create", 0), ("line", 0),
        ("creates by node 1", 1000), ("open and close by node 2", 1000), ("create and close beside", 1000),
        ("list", 1000)],
    ("large", "map"): [
        ("event create", 0), ("event open", 0), ("event last close", 0), ("line", 0),
        ("creates by node 1", 1000), ("open and close by node 2", 1000), ("create and close beside", 1000),
        ("creates by node 1", 100000), ("open and close by node 2", 100000), ("create and close beside", 100000)],
}
CAUSES = ["SHA-1", "zeros in place", "copies and zeros", "memory", "comparisons", "the rest"]
# A create's hash is made in these.
HASHING = re.compile(r"into_caller|ServiceHash::of")


def stores_of_zeros(program):
    """The addresses of a program's instructions that store zeros, told in the order of its code."""
    code = subprocess.run(["objdump", "-d", "--no-show-raw-insn", program], capture_output=True, text=True,
                          check=True).stdout
    found, zeroed = set(), set()
    for line in code.splitlines():
        instruction = re.match(r"\s*([0-9a-f]+):\s+(.*)", line)
        if line.endswith(">:"):
            zeroed = set()
        if not instruction:
            continue
        address, text = int(instruction.group(1), 16), instruction.group(2).strip()
        cleared = re.match(r"v?(?:xorps|pxor)\s+%(xmm\d+),%\1(?:,%\1)?$", text)
        stored = re.match(r"(?:movaps|movups|movdqa|movdqu)\s+%(xmm\d+),[^%]*\(%r", text)
        written = re.search(r",%(xmm\d+)$", text)
        if cleared:
            zeroed.add(cleared.group(1))
        elif stored and stored.group(1) in zeroed or re.match(r"mov[qlwb]\s+\$0x0,[^%]*\(%r", text):
            found.add(address)
        elif text.startswith("call"):
            zeroed = set()
        elif written:
            zeroed.discard(written.group(1))
    return found


def causes_of(folder, program, explained, zeros):
    """Of each explained part the instructions of one, by causes."""
    sums = {}
    for part, _, count, path in sections_of(folder, program):
        if part in explained:
            entry = sums.setdefault(part, [0, {}])
            entry[0] += count
            for function, cost, address in costs_of(path, of_instructions=True):
                cause = "SHA-1" if HASHING.search(function) else group_of(function)
                cause = "zeros in place" if cause == "the rest" and address and int(address, 16) in zeros else cause
                entry[1][cause] = entry[1].get(cause, 0) + cost
    return {part: {cause: cost / times for cause, cost in costs.items()} for part, (times, costs) in sums.items()}


def report_causes(folder, driver):
    zeros = stores_of_zeros(driver)
    for (program, other), explained in EXPLAINED.items():
        costs, others = (causes_of(folder, name, explained, zeros) for name in (program, other))
        rows = []
        for part in explained:
            if part in costs and part in others:
                more = [costs[part].get(cause, 0) - others[part].get(cause, 0) for cause in CAUSES]
                label = part[0] if not part[1] else f"{part[0]}, {part[1]:,} standing"
                rows.append([label, f"{sum(costs[part].values()) / sum(others[part].values()):.2f}"]
                            + [f"{number:,.0f}" for number in [sum(more)] + more])
        print(f"{NAMES[program]}: instructions for one that are more than in {other}, by causes:\n")
        table(["part", f"to {other}", "more"] + CAUSES, rows)


def read_counted(stored):
    """What a run that counted instructions wrote: of each part its unit, and the programs' instructions."""
    counted = {}
    for row in csv.DictReader(stored.open()):
        numbers = {program: float(row[program]) for program in PROGRAMS if row.get(program)}
        counted[row["case"], int(row["standing"])] = row["unit"], numbers
    return counted


def print_page_parts(counted, least):
    """Of each part with no standing services: over the table and over the large one, with the multiples of others."""
    rows = []
    for part in [(case, 0) for case in SHORT + FORMS if "with 4" not in case or case in SHORT]:
        if part in counted:
            unit, numbers = counted[part]
            # A form needs no table.
            programs = PROGRAMS[:1] if unit == "byte" else PROGRAMS[:2]
            own = [f"{numbers[program]:,.{1 if unit == 'byte' else 0}f}" for program in programs]
            times = [f"{least[part][1][program]:.2f}" for program in programs] if part in least else []
            of_part = compared(numbers)
            large = own[1:] + of_part[3:] if own[1:] else ["", "", ""]
            rows.append([f"{part[0]}, a byte" if unit == "byte" else part[0]] + own[:1] + of_part[:3] + large
                        + (times + [""] * 2)[:2])
    table(["part", "table"] + TO_OTHERS[:3] + ["large table", "to map", "to records", "time", "time, large"], rows)


def print_page_growth(numbers, what, digits):
    """Of each part beside standing services, by their number."""
    standing = sorted({number for case, number in numbers if case in BESIDE})
    if not standing:
        return
    rows = []
    for case, title in TITLES.items():
        # The picture has the vectors too.
        for program in ["proved", "large", "map", "records"]:
            found = [numbers[case, number][1].get(program) if (case, number) in numbers else None
                     for number in standing]
            # Three digits are enough.
            rows.append([title, NAMES[program]]
                        + ["" if one is None else f"{one:,.{digits if one < 100 else 0}f}" for one in found])
    table([f"{what}, beside", "program"] + [f"{number:,}" for number in standing], rows)


def report_page(folder, stored):
    """The tables of which docs/PERFORMANCE.md has a part, of the stored instructions and of the last run that timed."""
    counted = read_counted(stored)
    times, units = read_times(folder)
    # Of a byte nanoseconds, of all else microseconds: the least of the starts, which other tasks disturb least.
    least = {part: (units[part], {program: min(values) / (1 if units[part] == "byte" else 1000)
                                  for program, values in programs.items()})
             for part, programs in times.items()}
    print("The tables of which docs/PERFORMANCE.md has a part:\n")
    print_page_parts(counted, least)
    print_page_growth(counted, "instructions for one", 0)
    if least:
        print_page_growth(least, "microseconds for one", 2)


def guard(folder, stored):
    counted, differing = read_counted(stored), 0
    for program in PROGRAMS[:2]:
        for part, (now, _, _, count) in read_instructions(folder, program).items():
            before = counted[part][1].get(program, 0) if part in counted else 0
            change = now / before - 1 if before else 1
            if abs(change) > ALLOWED and abs(now - before) * count > ALLOWED_IN_ALL:
                differing += 1
                print(f"{NAMES[program]}: {part[0]}, {part[1]:,} standing: {before:,.1f} instructions before, "
                      f"{now:,.1f} now ({100 * change:+.1f} %)")
    if not differing:
        print("each part takes as many instructions as before, within 3 percent")
    return 1 if differing else 0


def main(words):
    match words:
        case ["times", folder, results]:
            report_times(Path(folder), Path(results))
        case ["instructions", folder, stored, picture]:
            return report_instructions(Path(folder), Path(stored), Path(picture))
        case ["causes", folder, driver]:
            report_causes(Path(folder), driver)
        case ["page", folder, stored]:
            report_page(Path(folder), Path(stored))
        case ["guard", folder, stored]:
            return guard(Path(folder), Path(stored))
        case _:
            print(f"not a report: {words}", file=sys.stderr)
            return 2
    return 0


if __name__ == "__main__":
    sys.exit(main(sys.argv[1:]))
