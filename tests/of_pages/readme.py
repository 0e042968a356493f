"""README.md, docs/PROGRAM.md and docs/ANS.md: output of commands; README's speed, number of crates, gate's multiple."""

from __future__ import annotations

import ast
import re
from math import ceil, log2

import definitions as by
from judging import Page, judge, read

HALVES = [[8388608, 8388608]]
PAGE = "docs/MEASUREMENTS.md"


def times():
    """Returns each case of docs/MEASUREMENTS.md with its time and its ratio, which is that of its two times."""
    row = r"^\| (\w+) \| ([\d.]+) \| ([\d.]+) \| \**([\d.]+)\** \|$"
    rows = re.findall(row, read(PAGE), flags=re.M)
    judge(len(rows) >= 40 and len({case for case, *_ in rows}) == len(rows), f"{PAGE}: each case once")
    for case, ours, theirs, ratio in rows:
        exact = float(ours) / float(theirs)
        judge(abs(exact - float(ratio)) < 0.0101, f"{PAGE}: {case}: {exact:.3f} is not {ratio}")
    return {case: (float(ours), ratio) for case, ours, _, ratio in rows}


def cell(found):
    """Returns a cell of README's table: up to two cases with a ratio each, or both ranges."""
    shown = [(f"{time:.1f}", ratio) for time, ratio in found]
    if len(shown) <= 2:
        return ", ".join(f"{time} ({ratio})" for time, ratio in shown)
    least, most = (f([float(time) for time, _ in shown]) for f in (min, max))
    ratios = sorted(ratio for _, ratio in shown)
    return f"{least} to {most} ({ratios[0]} to {ratios[-1]})"


def speed(page):
    """README's tables have the times and the ratios of docs/MEASUREMENTS.md."""
    found = times()

    def of(pattern):
        return cell([it for case, it in found.items() if re.fullmatch(pattern, case)])

    for coder, name in (("Stack coder (ANS)", "ans"), ("Range coder", "range"), ("Chain coder", "chain")):
        encodes = of(f"{name}_encode_.*_table"), of(f"{name}_encode_.*_flat")
        page.row(coder, *encodes, of(f"{name}_decode_.*_table"), of(f"{name}_decode_.*_(bucket|lookup|flat)"))
    page.row("Exp-Golomb", of("golomb_encode_.*"), of("golomb_decode_.*"))
    page.row("Single bits", of("bits_write_.*"), of("bits_read_.*"))
    page.row("Huffman coding", of("huffman_encode_.*"), of("huffman_decode_.*"))
    page.row("Building a Huffman tree", of("huffman_make_encoder_.*"), of("huffman_make_decoder_.*"))
    each = [f"{1000 / found[f'{it}_decode_u32u64p24_table'][0]:.0f}" for it in ("range", "ans")]
    page.has(f"{each[0]} (range coder) to {each[1]} (stack coder) million decoded symbols a second")


def gate():
    """The sums of the gate's costs, the multiple above the table, and the shares of the first call."""
    costs = read(PAGE).partition("<!-- table: gate -->\n")[2].partition("<!-- end of table -->")[0]
    *rows, whole = [line.split("|")[1:-1] for line in costs.splitlines() if line.startswith("|")][2:]
    sums = [round(sum(float(row[column]) for row in rows if row[column].strip())) for column in (1, 3)]
    judge(sums == [int(whole[1]), int(whole[3])], f"{PAGE}: the sums of the gate's parts")
    said = re.search(r"take about (\d+) times the proof of `constriction_words`", costs.replace("\n", " "))
    judge(said and int(said[1]) == sum(sums), f"{PAGE}: the gate's multiple")
    shares(rows)


def shares(rows):
    """The first call has the shares of the table of costs, whose rows may have two crates each."""
    tree = ast.parse(read("tools/first_call.py"))
    weights = next(
        ast.literal_eval(it.value)
        for it in tree.body
        if isinstance(it, ast.Assign) and getattr(it.targets[0], "id", "") == "WEIGHTS"
    )
    told = {tuple(re.findall(r"`(\w+)`", row[0])): float(row[1]) for row in rows if row[1].strip()}
    for crates, share in told.items():
        known = [weights[it] for it in crates if it in weights]
        judge(
            not known or abs(sum(known) - share) < 0.05,
            f"tools/first_call.py: the share of {', '.join(crates)} is {share} in {PAGE}",
        )
    judge(
        weights.keys() <= {it for crates in told for it in crates}, f"{PAGE}: a share for each crate of the first call"
    )


def crates_below(name):
    """Returns a crate and all crates below it, by crates.txt."""
    uses = {}
    for line in read("crates.txt").splitlines():
        head, _, rest = line.partition("#")[0].partition(":")
        if head.split():
            uses[head.split()[0]] = rest.split()
    found, left = set(), [name]
    while left:
        crate = left.pop()
        if crate in uses and crate not in found:
            found.add(crate)
            left += uses[crate]
    return found


def crates(page):
    """README has the number of the program's crates."""
    page.has(f"the program's {len(crates_below('constriction_cli'))} crates")


def commands(readme, program, ans):
    """Checks the program's commands by the coders' definitions. README has the first one, docs/ANS.md the first two."""

    def prints(command, text, answer, page=program):
        page.has(f"printf '{text}\\n' | ./constriction {command} # {answer}")

    def shown(numbers):
        return " ".join(map(str, numbers))

    head = 3 // 2 * 2**24 + 3 + 3 % 2
    ans.has(f"The first push turns 0 into 3, and the second turns 3 into {head}")
    words = shown(by.ans_words([[3, 2, 16777211]] * 2, [1, 1]))
    judge(words == str(head), "docs/ANS.md: the word of two pushes")
    prints("ans-encode", "3 2 16777211\\n1 1", f"prints {words}", readme)
    prints("ans-encode", "3 2 16777211\\n1 1", f"prints {words}", ans)
    prints("ans-decode", f"3 2 16777211\\n2 {words}", "prints 1 1", ans)
    words = shown(by.range_words(HALVES, [1]))
    prints("range-encode", "8388608 8388608\\n1", words)
    prints("range-decode", f"8388608 8388608\\n1 {words}", "1")
    symbols, left, remainders = by.chain_split(HALVES, [287454020, 256])
    judge(not left, "the words left of a chain coder")
    answer = f"{shown(symbols)}; no unread words; {shown(remainders)}"
    prints("chain-split", "8388608 8388608\\n1 287454020 256", answer)
    codewords = [by.golomb_codeword(number) for number in (0, 5, 7)]
    answer = f"{shown(codewords)}; {shown(by.queue_words(''.join(codewords)))}"
    prints("golomb", "0 5 7", answer)
    chunks = [[1, 0], [], [1]]
    words = shown(by.range_words(HALVES * 3, [symbol for chunk in chunks for symbol in chunk]))
    answer = f"{words}; {shown(chunks[2])}; {shown(chunks[0])}"
    lines = "\\n".join(map(shown, chunks))
    prints("store", f"8388608 8388608\\n2 0\\n{lines}", answer)
    prints("huffman", "2 2 4 1 1", shown(by.huffman_codewords([2, 2, 4, 1, 1])))


def faults(program):
    """docs/PROGRAM.md has a row for each command, and the text of each fault."""
    crate = "crates/constriction_commands/src"
    names = re.findall(r'"([\w-]+)" => Some\(Command::', read(f"{crate}/commands.rt"))
    lines = re.findall(r'b"((?:[^"\\]|\\.)*)"', read(f"{crate}/fault.rt").partition("pub fn line")[2], flags=re.S)
    lines = [re.sub(r"\\\n\s*", "", line).removesuffix("\\n") for line in lines]
    text = read(program.name)
    judge(len(names) >= 8 and len(lines) >= 15, f"{program.name}: the commands and the faults of the program")
    for name in names:
        judge(f"\n| `{name}` | " in text, f"{program.name}: no row of the command {name}")
    for line in lines:
        judge(f"`{line}`" in text, f"{program.name}: it doesn't name the fault {line}")


def trial_first():
    """README.md's first command is a trial, which proves nothing."""
    first = re.search(r"^[^#\n]*\./constriction( --trial)?", read("README.md").partition("\n```sh\n")[2], flags=re.M)
    judge(first and first[1], "README.md: the first command isn't a trial")


def test():
    """Judges the pages."""
    page = Page("README.md")
    program = Page("docs/PROGRAM.md")
    commands(page, program, Page("docs/ANS.md"))
    faults(program)
    trial_first()
    crates(page)
    speed(page)
    gate()
    rounding = f"{ceil(10000 * log2(1 + 2 ** -(64 - 32 - 24))) / 10000:.4f}"
    page.has(
        f"rounding adds at most {rounding} bits a symbol to the information content (24-bit precision, 32-bit words,"
    )
