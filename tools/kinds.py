"""Writes two files from a file u32.rt of constriction_c: functions that differ from the file's functions in a few
texts (u32_kinds.rt), and the impls of its structs (u32_parts.rt).

A change turns one function into another: regexes, in order, each with the text that replaces its matches.
"""

import re
import textwrap


# The change from an encode with one table of weights to an encode of items.
ENCODED = {
    r"\b(encode\w*)_by_weights\b": r"\1",
    r"(let answer = encode[^;]*?)\bweights, symbols(?=[,)])": r"\1&items",
}
BEFORE_ENCODE = r"((?:    let mut \w+ = \w+\.parts\(\);\n)?    let answer = encode)"


def of_models(name, says, parameters, models, lets):
    """Returns the change from a call with one table of weights to a call with another kind of models."""
    return {
        r"_(encode|decode)_": rf"_\1_{name}_",
        r"(,?) with one table of weights for all symbols": says,
        r"    weights: &\[u32\],\n": "".join(f"    {it},\n" for it in parameters.split(", ")),
        r"by_weights \(map \(lowest 32\) weights\.now\)": models,
        r"\n\{\n": "\n{\n" + "".join(f"    {it};\n" for it in lets.split("; ")),
        **ENCODED,
        BEFORE_ENCODE: r"    let items = Symbols { models, symbols };\n\1",
        r"_by_weights(.*) 24>": r"\1 _, 24>",
        r"_by_weights": "",
        r"\bweights, symbols(?=[,)])": "&models, symbols",
    }


def of_symbols(name, bits):
    """Returns the change from a call with symbols of type `usize` to a call with symbols of `bits` bits."""
    return {
        r"_(encode|decode)_": rf"_\1_{name}_",
        r"(Encodes|Decodes) symbols": rf"\1 symbols of type `u{bits}`",
        r"symbols: &(mut )?\[usize\]": rf"symbols: &\1[u{bits}]",
        r"(Decodes[^{}]*?\()by_weights \(map \(lowest 32\) weights\.now\)": rf"\1narrow_from_u32 {bits} weights.now",
        r"\bdecode_by_weights(.*) 24>": rf"decode_narrow\1 u{bits}, 24>",
        r"\[`decode_by_weights`\]": "[`decode_narrow`]",
    }


EACH = of_models(
    "each",
    r"\1 with a row of `width` weights for each symbol",
    "weights: &[u32], width: usize",
    "by_rows width (map (lowest 32) weights.now)",
    "let models = Rows { weights, width }",
)
COUNTS = of_models(
    "counts",
    r"\1 with a row of `width` counts for each symbol ([`Counts`])",
    "counts: &[u32], width: usize",
    "by_counts 32 width counts.now",
    "let models = Counts { counts, width }",
)
INDEXED = of_models(
    "indexed",
    r"\1 with the table of `width` weights at each symbol's index ([`Indexed`])",
    "weights: &[u32], width: usize, indexes: &[usize]",
    "by_indexes width (map (lowest 32) weights.now) indexes.now",
    "let models = Indexed {\n        weights,\n        width,\n        indexes,\n    }",
)
QUANTIZED = of_models(
    "quantized",
    ", each with the model of its own location and scale ([`Families`])",
    "family: u32, min: i32, max: i32, locations: &[i64], scales: &[u32]",
    "in_family family min max locations.now scales.now",
    "let models = Families::new(family, min, max, locations, scales)",
)
MIXTURE = of_models(
    "mixture",
    ", each with its own mixture of a family's distributions ([`Mixtures`])",
    "family: u32, min: i32, max: i32, width: usize, component_weights: &[u32], locations: &[i64], scales: &[u32]",
    "in_mixture family min max width component_weights.now locations.now scales.now",
    "let components = Families::new(family, min, max, locations, scales); "
    "let models = Mixtures::new(components, component_weights, width)",
)
BYTES = of_symbols("bytes", 8)
SHORTS = of_symbols("shorts", 16)
INTERVALS = {
    r"_encode_": "_encode_intervals_",
    r"symbols (.*), with .*": r"intervals \1. Interval `i` begins at quantile `lefts[i]` and has length `ps[i]`.",
    r"weights: &\[u32\],\n    symbols: &\[usize\],": "lefts: &[u32],\n    ps: &[u32],",
    r"by_weights \(map \(lowest 32\) weights\.now\)": "intervals_from_u32 lefts.now",
    r"length symbols\.now": "length ps.now",
    r"symbols\.now": "(map (lowest 32) ps.now)",
    **ENCODED,
    BEFORE_ENCODE: r"    let items = Intervals { lefts, ps };\n\1",
}
ANS_BINARY = {
    r"Exports .*": "Exports the binary form: writes the bits of the head below its leading 1 after the first `len` words of `words`.",
    r"into_compressed": "into_binary",
    r"\(AreCompressed 32\) \(.*?\)": "(AreBinary 32) (HasBinary 32)",
}
BINARY = {
    r"from compressed words": "from compressed words in binary form",
    r"Exports .*": "Exports the binary form: appends the remainders head's bits below its leading 1 to the compressed words.",
    r"_compressed": "_binary",
    r"InCompressed": "InBinary",
}
REMAINDERS = {
    r"from compressed words\. .*": "from the words of remainders. The coder has no compressed words below its heads.",
    r"Exports .*": "Exports remainders: writes the words of both heads after the first `rest` words of `remainders`.",
    r"_compressed": "_remainders",
    r"InCompressed": "InRemainders",
    r"\bcompressed(?=[:.,)])": "remainders",
    r"\bcount\b": "rest",
}
SELF_DELIMITED = {
    r"into_compressed": "into_self_delimited",
    r"IsSealed": "IsSelfSealed",
    r"and a seal(.*\n.*\n)": r"and a self-delimiting seal\1"
    "/// A state is two words wide, so this function writes the same words as `constriction_range_into_compressed_u32`.\n///\n",
}
STACK = {r"_queue": "_stack", r"AsQueue": "AsStack", r"a queue": "a stack", r"in order": "from the last to the first"}
HUFFMAN = {
    r"exp_golomb": "huffman",
    r"numbers": "symbols",
    r"alloc: Global,": "alloc: Global,\n    weights: &[u32],",
    r"with Exp-Golomb codewords": "with the Huffman tree of `weights`",
    r"symbols: &(mut )?\[u32\]": r"symbols: &\1[usize]",
    r"\(lowest 32\)": "(λ s. s)",
    r"OfNumbers 32": "OfWeights 32 (map (lowest 32) weights.now)",
    r"ExpGolomb::<u32>::new\(\)": "Tree { weights }",
}

# The changes of each module, with the ending of the names that they apply to. A function is from u32.rt, or from an
# earlier change.
MODELS = [
    ("(encode|decode)(_reverse)?_u32", EACH),
    ("(encode|decode)(_reverse)?_u32", COUNTS),
    ("encode(_reverse)?_u32", INTERVALS),
    ("(encode|decode)(_reverse)?_u32", QUANTIZED),
    ("(encode|decode)(_reverse)?_u32", MIXTURE),
]
CODED = [
    *MODELS,
    ("(encode|decode)(_reverse)?_u32", INDEXED),
    ("(encode|decode)(_reverse)?_u32", BYTES),
    ("(encode|decode)(_reverse)?_u32", SHORTS),
]
KINDS = {
    "ans": [*CODED, ("into_compressed_u32", ANS_BINARY)],
    "lanes": MODELS,
    "chain": [*CODED, ("_compressed_u32", BINARY), ("_compressed_u32", REMAINDERS)],
    "range": [*CODED, ("into_compressed_u32", SELF_DELIMITED)],
    "symbol": [("queue_u32", STACK), ("exp_golomb.*", HUFFMAN)],
}
# Imports that the written files may need besides the imports of u32.rt.
IMPORTS = """
ghost use Rattle.constriction_c.specs.U32.{intervals_from_u32, decoder_u32, encoder_u32, heads_u32, narrow_from_u32};
ghost use Rattle.constriction_calls.specs.AnsCalls.{AreBinary, HasBinary};
ghost use Rattle.constriction_calls.specs.declared.chain.Form.TheVariants.{InBinary, InRemainders};
ghost use Rattle.constriction_calls.specs.RangeCalls.{IsSelfSealed};
ghost use Rattle.constriction_calls.specs.SymbolCalls.{AsStack, OfWeights};
ghost use Rattle.constriction_inputs.specs.Counts.{by_counts};
ghost use Rattle.constriction_inputs.specs.Indexed.{by_indexes};
ghost use Rattle.constriction_inputs.specs.Mixtures.{in_mixture};
ghost use Rattle.constriction_inputs.specs.Quantized.{in_family};
ghost use Rattle.constriction_inputs.specs.Rows.{by_rows};
ghost use Rattle.std.specs.Prelude.{◌≡◌, map};
use constriction_calls::ans::decoding::decode;
use constriction_calls::ans::encoding::encode_reverse;
use constriction_calls::ans::words::into_binary;
use constriction_calls::chain::{ChainHeads, decode, encode_reverse};
use constriction_calls::range::decoding::decode;
use constriction_calls::range::encoding::encode;
use constriction_calls::range::parts::{DecoderParts, EncoderParts};
use constriction_calls::range::words::into_self_delimited;
use constriction_calls::symbol::{Tree, decode_stack, encode_stack};
use constriction_lanes::decoding::decode;
use constriction_lanes::encoding::encode_reverse;
use constriction_inputs::intervals::Intervals;
use constriction_inputs::models::{Counts, Families, Indexed, Mixtures, Rows};
use constriction_inputs::symbols::Symbols;
"""

# For each struct: the type of constriction_calls with the same fields, and the definition of the conversion to it.
STRUCTS = {
    "ChainHeadsU32": ("ChainHeads<u32, u64>", "heads_u32"),
    "RangeEncoderU32": ("EncoderParts<u32, u64>", "encoder_u32"),
    "RangeDecoderU32": ("DecoderParts<u64>", "decoder_u32"),
}
PARTS = """impl {name} {{
    /// Returns the struct's fields as the type that the calls of `constriction_calls` take.
    #[inline]
    pub fn parts(&self) -> {type}
        ensures {{ result ≡ {value} self.now }}
    {{
        {made} {{
{taken}
        }}
    }}

    /// Creates the struct from `parts`, which a call of `constriction_calls` has set or returned.
    #[inline]
    pub fn of(parts: {type}) -> Self
        ensures {{ {value} result ≡ parts }}
    {{
        {name} {{
{put}
        }}
    }}
}}"""


def changed(function, change):
    """Returns a function after a change.

    Lines of its clause have at most 120 characters and break outside of brackets.
    """
    for regex, text in change.items():
        function = re.sub(regex, text, function)
    head, clause, body = re.split(r"\n    ensures |(?<=\})\n(?=\{)", function)
    brackets = r"\((?:[^()]|\((?:[^()]|\([^()]*\))*\))*\)"
    clause = re.sub(brackets, lambda it: it[0].replace(" ", "\0"), " ".join(clause.split())).replace(" }", "\0}")
    lines = textwrap.fill(
        f"    ensures {clause}", 120, subsequent_indent=" " * 8, break_long_words=False, break_on_hyphens=False
    )
    body = re.sub(r"^(    let answer = [^(\n]*\()\n +(.*),\n    \);$", r"\1\2);", body, flags=re.M)
    body = re.sub(r"^    (let answer = [^(]*\()(.*)\);$", wrapped, body, flags=re.M)
    return "\n".join([head, lines.replace("\0", " "), body])


def wrapped(call):
    """Returns a call in the layout of `rt fmt`: beyond 100 characters, its arguments have their own line."""
    return call[0] if len(call[0]) <= 100 else f"    {call[1]}\n        {call[2]},\n    );"


def parts(name, fields):
    """Returns the impl of a struct with these fields."""
    kind, value = STRUCTS[name]
    taken, put = (
        "\n".join(f"            {it}: {of}.{it}," for it in re.findall(r"pub (\w+):", fields))
        for of in ("self", "parts")
    )
    return PARTS.format(name=name, type=kind, made=kind.split("<")[0], value=value, taken=taken, put=put)


def imports(text, body):
    """Returns the imports whose names a source uses."""
    found = {}
    for path, names in re.findall(r"^((?:ghost )?use [\w:.]+(?:::|\.))\{?([^:{};]+)\}?;$", text, re.M):
        used = {it for it in re.findall(r"[^\s,]+", names) if re.search(rf"(?<![\w`]){it.strip('◌')}(?![\w`])", body)}
        found[path] = sorted(used | set(found.get(path, ())), key=lambda it: (it[0] != "◌", it))
    lines = [it for path, names in found.items() if names for it in uses(path, names)]
    ghost = sorted(it for it in lines if it.startswith("ghost"))
    return "\n".join([*ghost, "", *sorted(set(lines) - set(ghost), key=lambda it: ("crate" not in it, it))])


def uses(path, names):
    """Returns the imports of a module's names. Those of definitions are lines of at most 120 characters."""
    if not path.startswith("ghost"):
        return [f"{path}{listed(names)};"]
    rows = textwrap.wrap(", ".join(names), 120 - len(path) - len("{};"))
    return [f"{path}{{{row.rstrip(',')}}};" for row in rows]


def listed(names):
    """Returns the names of a module in the layout of `rt fmt`: in lines of at most 100 characters."""
    text = ", ".join(names)
    if len(names) > 1 and len(text) < 60:
        return f"{{{text}}}"
    return text if len(names) == 1 else "{\n" + textwrap.indent(textwrap.fill(f"{text},", 96), " " * 4) + "\n}"


def calls_of(module, line):
    """Returns whether an import is for the module: its calls' imports are, and those that aren't of any calls."""
    if "constriction_lanes::" in line:
        return module == "lanes"
    return "constriction_calls::" not in line or f"::{module}::" in line


# The description of u32_kinds.rt for each module.
MORE = {
    "ans": "of the stack coder: other models, symbols of 8 and 16 bits, and words in binary form",
    "lanes": "for many stack coders in one call: other models, and intervals",
    "range": "of the range coder: other models, symbols of 8 and 16 bits, and self-delimiting words",
    "chain": "of the chain coder: other models, symbols of 8 and 16 bits, binary form, and words of remainders",
    "symbol": "for codewords: Exp-Golomb on a stack, and Huffman on a queue, on a stack and at a given bit",
}


def derived_files(module, text):
    """Yields the name and the text of each file that is written from a module's u32.rt with this text."""
    functions = [it for it in text.rstrip("\n").split("\n\n") if 'extern "C"' in it]
    count = len(functions)
    for end, change in KINDS.get(module, ()):
        functions += [changed(it, change) for it in functions if re.search(rf"fn \w*{end}\(", it)]
    structs = dict(re.findall(r"pub struct (\w+) \{\n(.*?)\n\}", text, re.S))
    given = [it for it in IMPORTS.split("\n") if calls_of(module, it)]
    given += [f"use crate::{module}::by_weights::decode_narrow;"]
    given += [f"use crate::{module}::u32::{{{', '.join(structs)}}};"] if structs else []
    written = {
        "kinds": (f"More C functions {MORE.get(module)}.", functions[count:]),
        "parts": (
            "Converts the C functions' structs to the types that the calls of `constriction_calls` take, and back.",
            [parts(*it) for it in structs.items()],
        ),
    }
    for name, (says, items) in written.items():
        body = "\n\n".join(items)
        if items:
            yield f"u32_{name}.rt", f"//! {says}\n\n{imports(text + chr(10).join(given), body)}\n\n{body}\n"
