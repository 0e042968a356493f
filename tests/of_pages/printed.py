"""Code of pages is in the files that the pages name, and example programs print the results of the definitions."""

from __future__ import annotations

import os
import re

import definitions as by
from judging import TOP, Page, judge, listed, read

EXAMPLES, MODEL = "crates/constriction_examples", "docs/ADDING_A_MODEL.md"


def blocks(name):
    """Yields each block of code of a page with the text between it and the code or heading above."""
    parts = re.split(r"^```(\w*)\n(.*?)^```$", read(name), flags=re.M | re.S)
    for above, language, code in zip(parts[0::3], parts[1::3], parts[2::3]):
        yield re.split(r"^#", above, flags=re.M)[-1], language, code


def in_file(name, path, code, begins):
    """Judges that each item of the code is in the file, without its comments."""
    source = read(path)
    for item in re.split(rf"\n\n(?={begins})", code.strip()):
        judge(item in source, f"{name}: not the text of {path}: {item.splitlines()[0]}")


def body(code, function):
    """Returns the body of a function, with one name of the allocator."""
    found = re.search(rf"^(?:pub )?fn {function}\(.*?\{{\n(.*?)^\}}$", code, flags=re.M | re.S)
    return found and found[1].replace("rt.alloc()", "alloc").replace("    let alloc = alloc;\n", "")


def calling():
    """Checks that functions are in `uses`, and other code in the file that is named above it."""
    name = "docs/CALLING.md"
    for above, language, text in blocks(name):
        named = re.findall(r"`((?:specs|proofs)/[\w/]+\.antt)`", above)
        if named:
            in_file(name, f"{EXAMPLES}/{named[-1]}", text, "pub ")
        elif language == "rust":
            in_file(name, f"{EXAMPLES}/src/uses.rt", text, "pub ")


def programs():
    """Checks the programs that are `run` of a file, by the text above them."""
    name = "docs/EXAMPLES.md"
    for above, _, text in blocks(name):
        for path in re.findall(r"is the function `run` of `([\w/]+\.rt)`", above):
            ours = body(text, "main")
            judge(ours and ours == body(read(path), "run"), f"{name}: not `run` of {path}")


def prints():
    """Checks the computed part of the output of the programs that docs/EXAMPLES.md links to."""
    page, words = Page(f"{EXAMPLES}/src/programs/chain.rt"), [1, 2, 0x9ABCDEF0, 0x12345678, 256]
    page.has(f"let words = [1, 2, 0x{words[2]:x}, 0x{words[3]:x}, 256]")
    page.has("&[8388608, 4194304, 4194304]")
    symbols, left, _ = by.chain_split([[8388608, 4194304, 4194304]] * 2, words)
    page.has(f'println!(rt; "{{symbols:?}}")?; // {listed(symbols)}')
    page.has(f'println!(rt; "{{prefix:?}} {{exported:?}}")?; // {listed(left)} {listed(words[len(left):])}')
    page, codewords = Page(f"{EXAMPLES}/src/programs/bits.rt"), [by.golomb_codeword(number) for number in (0, 5, 7)]
    page.has(f"0 is {codewords[0]}, 5 is {codewords[1]}, 7 is {codewords[2]}")
    page, codewords = Page(f"{EXAMPLES}/src/programs/huffman.rt"), by.huffman_codewords([2, 2, 4, 1, 1])
    page.has(f"The codewords {', '.join(codewords[:-1])} and {codewords[-1]}")


def model():
    """Checks that code of the guide is in the named files, and that commands of `rt` name functions."""
    for above, language, text in blocks(MODEL):
        named = re.findall(r"`(crates/[\w/]+\.rt)`", above)
        if language == "rust":
            in_file(MODEL, named[-1], text, "impl")
    for path in set(re.findall(r"^rt check --(?:only|start) (\S+)", read(MODEL), flags=re.M)):
        folder = f"crates/constriction_bench/proofs/{path.replace('::', '/')}"
        judge(os.path.isdir(f"{TOP}/{folder}"), f"{MODEL}: there is no {folder}")


def test():
    """Judges the code, commands and files of the pages."""
    calling()
    programs()
    prints()
    model()
