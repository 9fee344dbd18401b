#!/usr/bin/env python3
"""Holds the C header and the Rust wrapper to the proved sources: limits, sizes, structs, outcomes, the version, and refusals.

The list of refusals is the definition `number_and_place` (crates/refusals/specs/Refusals.antt) beside the enum `Refusal`: a case that has no number there, or whose number is missing
anywhere else (the header's macros and texts, the wrapper's reasons and texts), fails. It ends with 1 and a line for each fault.
"""

import re
import sys
from pathlib import Path

ROOT = Path(__file__).resolve().parent.parent
SOURCES = {path.parent.parent.name: path.read_text() for path in sorted(ROOT.glob("crates/*/src/lib.rt"))}
INTERFACE = SOURCES["results"] + SOURCES["vanecitron"]
DEFINED = (ROOT / "crates/results/specs/Calls.antt").read_text()
HEADER = (ROOT / "host/include/vanecitron.h").read_text()
WRAPPER = (ROOT / "host/vanecitron/src/lib.rs").read_text()
RAW = (ROOT / "host/vanecitron/src/raw.rs").read_text()
REASONS = (ROOT / "host/vanecitron/src/refusal.rs").read_text()
MANIFEST = (ROOT / "host/Cargo.toml").read_text()
SPECIFICATION = ROOT / "docs/SPECIFICATION.md"

# what the proved sources say, and its name in the header, without VANECITRON_, and in the wrapper
LIMITS = {
    "Head::MOST_LETTERS": "LETTERS",
    "Relation::MOST": "RULES",
    "Relation::MOST_LETTERS": "SIDE",
    "Word::COMPARED": "RUN",
    "Word::ROUND": "ROUND_RUN",
    "Word::MARK": "ROUND_MARK",
    "ComparisonRecord::ALLOWANCE": "ALLOWANCE",
    "Word::SPACING": "PLACE_SPACING",
    "Input::MOST": "INPUT",
    "Sheet::COLUMNS": "SHEET_SIDE",
    "Sheet::X": "SHEET_X",
    "Sheet::Y": "SHEET_Y",
    "Sheet::Z": "SHEET_Z",
    "Sheet::PIECES": "SHEET_PIECES",
    "Number::NONE": "NO_PRODUCT",
    "2 * Sheet::COLUMNS * Relation::MOST": "SHEET",
    "Word::NEXT": "NEXT_RUN",
    "Word::MARK ": "NEXT_MARK",
    "Output::MOST": "OUTPUT",
    "Word::LEAST_WORD": "LEAST",
    "Held::BOOK": "BOOK_MOST",
    "Held::ROOM": "HELD",
    "Held::COUNTED": "CHANGES_MOST",
    "Held::BUFFER": "HELD_BUFFER",
    "Ticket::ROOM": "TICKET",
    "Ticket::BUFFER": "TICKET_BUFFER",
    "Ticket::ADDITION": "TICKET_ADDITION",
    "Ticket::WITHDRAWAL": "TICKET_WITHDRAWAL",
}

# the header's name where it is another
HEADER_NAMES = {"SHEET": "SHEET_MOST", "LEAST": "LEAST_MOST"}

# the specification's word for a case of `Refusal` whose name is another; the macro and the reason are named by the word
WORDS = {"UnknownLetter": "unknown step", "TooMany": "thick", "NoSuchRelation": "no such rule", "NotPiece": "not a piece", "NoPrefix": "no such front"}

# what names them where the word is longer than a name should be
NAMES = {"not a piece": "not piece", "no such front": "no front"}

C_TYPES = {"u32": "uint32_t", "u64": "uint64_t"}


def associated_constants():
    """The expressions of the associated constants of the proved sources, by TYPE::NAME."""
    found = {}
    for text in SOURCES.values():
        for kind, block in re.findall(r"^impl (\w+) \{\n(.*?)^\}", text, re.M | re.S):
            for name, expression in re.findall(r"^    pub const (\w+): \w+ = ([^;]+);", block, re.M):
                found[f"{kind}::{name}"] = expression
    return found


def value(expression, constants):
    """An expression over constants and numbers, on one line or more; KeyError where a constant is missing."""
    numbers = re.sub(r"\w+::\w+", lambda match: str(value(constants[match[0]], constants)), " ".join(expression.split()))
    return eval(numbers.replace("/", "//"), {"__builtins__": {}})


def macros(text):
    """The values of the header's macros that are expressions, and those with an argument as functions."""
    found = {"__builtins__": {}}
    text = re.sub(r"/\*.*?\*/", "", text, flags=re.S)
    for name, argument, expression in re.findall(r"^#define VANECITRON_(\w+)(?:\((\w+)\))? +(\S.*?) *$", text, re.M):
        expression = re.sub(r"\b(\d+)u\b", r"\1", expression).replace("VANECITRON_", "").replace("/", "//")
        found[name] = eval(f"lambda {argument}: {expression}" if argument else expression, found)
    return found


def rust_constants(text):
    """The values of the wrapper's constants that are expressions over numbers and constants before them."""
    found = {"__builtins__": {}}
    for name, expression in re.findall(r"^pub const (\w+): \w+ = ([\w *+]+);", text, re.M):
        found[name] = eval(expression, found)
    return found


def differ(what, expected, places):
    """A line for each place, by name, whose value is not the expected one."""
    for place, found in places.items():
        if found != expected:
            yield f"{what} is {expected!r}: {place} has {'nothing' if found is None else repr(found)}"


def limits(header):
    constants, wrapper = associated_constants(), rust_constants(WRAPPER) | rust_constants(REASONS)
    for expression, name in LIMITS.items():
        try:
            number = value(expression, constants)
        except KeyError as missing:
            yield f"{missing.args[0]} is missing in the proved sources"
            continue
        macro = HEADER_NAMES.get(name, name)
        yield from differ(expression.strip(), number, {f"VANECITRON_{macro} of the header": header.get(macro), f"{name} of the wrapper": wrapper.get(name)})


def outcomes(header):
    """The codes of outcomes: by the code, the header and the wrapper; those of answers are not 0, which the definition gives for a refusal."""
    codes = {name.split("::")[1]: int(number) for name, number in associated_constants().items() if name.startswith("Outcome::")}
    raw = rust_constants(RAW)
    if not {"NONE", "SAME", "DIFFERENT", "NEXT"} <= codes.keys():
        yield "an outcome is missing in the proved sources"
    for name, code in codes.items():
        places = {f"VANECITRON_{name} of the header": header.get(name)}
        if name != "NONE":
            places[f"{name} of the wrapper"] = raw.get(name)
        yield from differ(f"Outcome::{name}", code, places)
    if len(set(codes.values())) != len(codes) or codes.get("NONE") != 0:
        yield f"the outcomes are not apart, or NONE is not 0: {codes}"


def versions(header):
    number = value("Version::NUMBER", associated_constants())
    text = f"{number // 10000}.{number // 100 % 100}.{number % 100}"
    defined = re.search(r"^version = (\d+)$", DEFINED, re.M)
    manifest = re.search(r'^version = "(.*)"$', MANIFEST, re.M)
    yield from differ("the version", number, {"the definition": defined and int(defined[1]), "VANECITRON_VERSION of the header": header.get("VERSION")})
    yield from differ("the version", text, {"host/Cargo.toml": manifest and manifest[1], "VANECITRON_VERSION_TEXT of the header": header.get("VERSION_TEXT")})


def structs():
    """The fields of the structs, in order and with their types; the wrapper and the header have no other structs."""
    fields = lambda body, form: re.findall(form, re.sub(r"/\*.*?\*/|//.*", "", body, flags=re.M), re.M)
    of_c = re.compile(r"^#\[repr\(C\)\]\n(?:#\[derive\([\w, ]*\)\]\n)?pub struct (\w+) \{\n(.*?)^\}", re.M | re.S)
    proved, raw = of_c.findall(INTERFACE), dict(of_c.findall(RAW))
    header = {name: body for body, name in re.findall(r"^typedef struct \{\n((?:    .*\n)*)\} (\w+);", HEADER, re.M)}
    c_names = {name: "vanecitron_" + re.sub(r"(?<!^)([A-Z])", r"_\1", name).lower() for name, _ in proved}
    if not proved:
        yield "the proved sources have no structs for C"
    yield from differ("the list of structs", sorted(c_names), {"the wrapper": sorted(raw)})
    yield from differ("the list of structs", sorted(c_names.values()), {"the header": sorted(header)})
    for name, body in proved:
        expected = fields(body, r"^    pub (\w+): (\w+),")
        c_name = c_names[name]
        in_c = [(C_TYPES[kind], field) for field, kind in expected]
        yield from differ(name, expected, {"the wrapper": fields(raw.get(name, ""), r"^    pub (\w+): (\w+),")})
        yield from differ(name, in_c, {f"{c_name} of the header": fields(header.get(c_name, ""), r"^    (\w+) (\w+);")})


def functions():
    """Each function for C is declared in the header and in the wrapper, and nothing else is."""
    proved = sorted(re.findall(r'^pub extern "C" fn (\w+)', INTERFACE, re.M))
    declared = re.sub(r"/\*.*?\*/|^static inline .*?^\}", "", HEADER, flags=re.M | re.S)
    yield from differ("the list of functions", proved, {
        "the header": sorted(re.findall(r"^\w+ (vanecitron_\w+)\(", declared, re.M)),
        "the wrapper": sorted(re.findall(r"^    fn (\w+)\(", RAW, re.M)),
    })


def defined_refusals():
    """The number of each case by the definition, and a line for each case of the enum that it lacks or has twice."""
    definition = (ROOT / "crates/refusals/specs/Refusals.antt").read_text()
    numbers = {case: int(number) for case, number in re.findall(r"^number_and_place \(?(\w+).*number = (\d+)", definition, re.M)}
    enum = next(re.search(r"^pub enum Refusal \{\n(.*?)^\}", text, re.M | re.S) for text in SOURCES.values() if "pub enum Refusal {" in text)[1]
    cases = re.findall(r"^    (\w+)", enum, re.M)
    lines = [f"Refusal::{case} has no number in the definition" for case in cases if case not in numbers]
    lines += [f"the definition has {case}, which is no case of Refusal" for case in numbers if case not in cases]
    if len(set(numbers.values())) != len(numbers):
        lines.append(f"a number stands twice in the definition: {numbers}")
    return numbers, lines


def refusals(header):
    numbers, lines = defined_refusals()
    yield from lines
    expected = {number: WORDS.get(case, re.sub(r"(?<!^)([A-Z])", r" \1", case).lower()) for case, number in numbers.items()}
    texts = {macro: (word, text) for macro, word, text in re.findall(r'case VANECITRON_(\w+): return "([^":]*): ([^"]*)";', HEADER)}
    listed = {int(number): told for number, *told in re.findall(r'^    \((\d+), Reason::(\w+), "([^"]*)", "([^"]*)"\),', REASONS, re.M)}
    variants = re.findall(r"^    (\w+),$", re.search(r"^pub enum Reason \{\n(.*?)^\}", REASONS, re.M | re.S)[1], re.M)
    for number, word in sorted(expected.items()):
        name = NAMES.get(word, word)
        macro, reason = name.upper().replace(" ", "_"), name.title().replace(" ", "")
        in_rust = listed.get(number, (None, None, None))
        yield from differ(f"refusal {number}", number, {f"VANECITRON_{macro} of the header": header.get(macro)})
        yield from differ(f"the word of refusal {number}", word, {
            "vanecitron_refusal_text": texts.get(macro, (None, None))[0],
            "the wrapper": in_rust[1],
        })
        yield from differ(f"the reason of refusal {number}", reason, {"the wrapper's list": in_rust[0]})
        yield from differ(f"the text of refusal {number}", texts.get(macro, (None, None))[1], {"the wrapper": in_rust[2]})
        if reason not in variants:
            yield f"refusal {number} is {word!r}: the wrapper's enum has no {reason}"
    for where, known in [("the wrapper's list", len(listed)), ("the wrapper's enum", len(variants)), ("the header's texts", len(texts))]:
        if known != len(expected):
            yield f"there are {len(expected)} refusals: of {where} there are {known}"
    section = re.search(r"^## Refusals by number\n(.*?)^##", SPECIFICATION.read_text(), re.M | re.S)[1]
    table = {int(number): word for number, word in re.findall(r"^\| (\d+) \| ([a-z ]+) \|", section, re.M) if word != "not used"}
    yield from differ("the table of refusals", expected, {"docs/SPECIFICATION.md": table})


def main():
    header = macros(HEADER)
    lines = [*limits(header), *outcomes(header), *versions(header), *structs(), *functions(), *refusals(header)]
    if lines:
        print("\n".join(lines))
        return 1
    print(f"{len(LIMITS)} limits, {len(defined_refusals()[0])} refusals, the outcomes, the version, the structs and the functions agree with the proved sources")
    return 0


if __name__ == "__main__":
    sys.exit(main())
