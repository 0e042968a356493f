"""The tables of docs/MEASUREMENTS.md and docs/GATE.md are what `bench/table` writes from a run with their numbers."""

from __future__ import annotations

import re
import subprocess

from judging import TOP, judge, read

PAGE = "docs/MEASUREMENTS.md"
GATE = "docs/GATE.md"


def tables():
    """Returns the text of each table by its name, and its rows of bare cells."""
    found = {}
    both = read(PAGE) + read(GATE)
    for name, text in re.findall(r"<!-- table: (.*?) -->\n(.*?)\n?<!-- end of table -->", both, flags=re.S):
        rows = [
            [cell.strip(" *") for cell in line.split("|")[1:-1]] for line in text.splitlines() if line.startswith("|")
        ]
        found[name] = text, rows[2:]
    return found


def head(text):
    """Yields the first line of a run, if the table's caption has its date, processor and load."""
    said = re.match(r"`bench/\w+` ran on (\S+) \((.*), load (\S+)\)[:.]", text)
    if said:
        yield f"{said[1]}, {said[2]}, load {said[3]}"


def speed(rows):
    """Yields the lines of bench/compare."""
    return (" ".join(row) for row in rows)


def bits(rows):
    """Yields the lines of bench/compare on bits per symbol."""
    for case, written, information, overhead in rows:
        size, kind = case.split()
        yield f"# ans_encode_{size}_{kind}: {written} bits per symbol, {information} under the model, overhead {overhead}"


def gaussians(rows):
    """Yields the lines of bench/models from C."""
    for symbols, encode, inlined, _, called, _, decode, other, _ in rows:
        most = symbols.split()[-1]
        times = ("encode", "gaussian", encode), ("encode", "erfc", inlined), ("encode", "erfc_intervals", called)
        for call, model, time in (*times, ("decode", "gaussian", decode), ("decode", "erfc", other)):
            yield f"c_ans_{call}_u32u64p24_{model}_{most} {time}"


def gaussians_from_python(rows):
    """Yields the lines of bench/models from Python."""
    calls = [(call, kind) for kind in ("numpy", "array") for call in ("encode", "decode")]
    for row, coder in zip(rows, ("ans", "range")):
        for (call, kind), time in zip(calls, row[1:]):
            yield f"python_{coder}_{call}_u32u64p24_gaussian_{kind} {1000 * float(time)}"


def lists_from_python(rows):
    """Yields the lines of lists of bench/from_python."""
    for (_, *cells), case in zip(rows, ("ans_{}", "ans_{}_bytes", "range_{}", "range_{}_bytes")):
        for call, c, ratio in (("encode", *cells[:2]), ("decode", *cells[2:])):
            yield f"python_lists_{case.format(call)} {c} {float(c) * float(ratio)}"


def calls_from_python(rows):
    """Yields the lines of calls of bench/from_python."""
    calls = [(coder, call) for coder in ("ans", "range") for call in ("encode", "decode")]
    for (_, *cells), case in zip(rows, ("table", "gaussian", "slice", "row", "numpy256", "mixture")):
        for (coder, call), cell in zip(calls, cells):
            yield f"python_one_{coder}_{call}_{case} {1000 * float(cell.split()[0])}"


def lanes(rows):
    """Yields the lines of bench/lanes from C."""
    cases = [f"lanes_{call}_{size}" for size in ("u32u64p24", "u16u32p12") for call in ("encode", "decode")]
    names = [f"list_{n}" for n in (1, 3, 4, 6, 64)] + [f"{it}_{n}" for it in ("table", "gaussian") for n in (64, 1024)]
    for (_, *cells), name in zip(rows, names):
        for case, cell in zip(cases, cells):
            time, *ratio = map(float, cell.strip(")").split(" ("))
            yield f"{case}_{name} {time}"
            if not name.startswith("list"):
                yield f"{case}_{name}_alone {time / ratio[0]}"


def lanes_from_python(rows):
    """Yields the lines of bench/lanes from Python."""
    for (_, *cells), count in zip(rows, (64, 1024)):
        for call, cell in zip(("encode", "decode"), cells):
            time, ratio = map(float, cell.strip(")").split(" ("))
            yield f"python_lanes_{call}_{count} {time / ratio} {time}"


def program(rows):
    """Yields the lines of two runs of bench/program, with the least and the greatest number of each cell."""
    for command, *cells in rows:
        ends = [cell.split(" to ") for cell in cells]
        for end in (0, -1):
            yield " ".join([command.split("`")[1], *(it[end] for it in ends)])


def gate(rows):
    """Yields the lines of .ci/run: of crates, of parts, and of all other parts as one."""
    text = tables()["gate"][0]
    date, processors, speed = re.search(r"ran on (\S+) \((\d+) processors at ([\d.]+) GHz\)", text).groups()
    yield f"gate: {date}, {processors} processors, A processor @ {speed}GHz"
    one, proofs = int(re.search(r"took (\d+)\s", text.replace("processor seconds", ""))[1]), 0.0
    for name, share in ((row[at].strip("`"), row[at + 1]) for row in rows[:-1] for at in (0, 2) if row[at]):
        seconds = one * float(share)
        if name.startswith("constriction"):
            proofs += seconds
            yield f"crate {name}: {seconds}"
        elif name == "other parts":
            others = seconds
        else:
            yield f"| `{name}` | {seconds / 60} |"
    yield f"| `rt ci` | {(proofs + others) / 60} |"


def first_calls(rows):
    """Yields the lines of bench/first_call, and one of .ci/run."""
    text = " ".join(tables()["first call"][0].split())
    yield f"constriction_words: {re.search(r'in the same run .([0-9]+) ', text)[1]}"
    if answered := re.search(r"unproved answer came after (\d+) s", text):
        yield f"unproved answer: {answered[1]}"
    names = {"first call": "first call", "library": "library", "gate": "gate run"}
    for row, *cells in rows:
        name = next(named for word, named in names.items() if word in row)
        times = " ".join(cell.split()[0] for cell in cells)
        yield f"{name}: {times}" + (f" {re.search('in the gate ([0-9]+)', text)[1]}" if name == "gate run" else "")


def sentences(found):
    """Judges what other pages say of tables."""
    names = {"__name__": "table", "__file__": f"{TOP}/bench/table"}
    exec(compile(read("bench/table"), "bench/table", "exec"), names)
    for page, name, pattern, said in names["SENTENCES"]:
        text, rows = found[name]
        judge(rows, f"{PAGE}: the table '{name}' is empty")
        if rows:
            shown, wanted = [" ".join(it.split()) for it in re.findall(pattern, read(page))], said(text)
            judge(shown == [wanted], f"{page} says {shown} of '{name}', not {wanted}")


def test():
    """Judges each table, and the sentences on tables of other pages."""
    lines = {
        "speed": speed,
        "bits": bits,
        "Gaussians": gaussians,
        "Gaussians from Python": gaussians_from_python,
        "lists from Python": lists_from_python,
        "calls from Python": calls_from_python,
        "lanes": lanes,
        "lanes from Python": lanes_from_python,
        "program": program,
        "gate": gate,
        "first call": first_calls,
    }
    found = tables()
    judge(found.keys() == lines.keys(), f"{PAGE} has the tables {', '.join(found)}")
    for name, (text, rows) in found.items():
        run = "\n".join([*head(text), *lines[name](rows)])
        done = subprocess.run([f"{TOP}/bench/table"], input=run, capture_output=True, text=True)
        judge(
            done.stdout == f"{text}\n",
            f"{PAGE}: the table '{name}' isn't what bench/table writes\n{done.stdout}{done.stderr}",
        )
    sentences(found)
