"""What the module and the Rust package repeat of the header, of each other and of crates/refusal,
compared.
"""

import ctypes
import re

from .holding import Failed
from .subject import ROOT, morgana

HEADER = ROOT / "host/include/morgana.h"
SENTENCES = ROOT / "host/src/refusal.rs"
RUST_NUMBERS = ROOT / "host/src/number.rs"
RUST_CONSTANTS = ROOT / "host/src/constants.rs"
REASONS = ROOT / "crates/refusal/src/lib.rt"
CONSTANTS = ("P", "KEY_LIMIT", "MOST_ARRAYS", "MOST_BITS", "MOST_RATE", "SHEET", "SHEET_QUADRATIC")
# Numbers of the crates that no call of the C interface gives.
OTHERS = {33, 34, 41, 42}
TYPES = {"uint32_t": ctypes.c_uint32, "uint64_t": ctypes.c_uint64, "size_t": ctypes.c_size_t}
POINTERS = {"uint8_t": ctypes.c_char_p, "uint32_t": ctypes.POINTER(ctypes.c_uint32)}


def read(path):
    """A file of this tree."""
    return path.read_text(encoding="utf-8")


def uncommented(text):
    """C without its comments."""
    return re.sub(r"/\*.*?\*/", "", text, flags=re.DOTALL)


def product(text, known):
    """A number as a #define has it: numbers and known names, multiplied."""
    total = 1
    for factor in text.strip("() ").split("*"):
        name = factor.strip().removeprefix("MORGANA_")
        total *= known[name] if name in known else int(name.rstrip("uUlL"))
    return total


def defined(header):
    """The numbers that the header defines, by their names behind MORGANA_."""
    known = {}
    for name, value in re.findall(r"^#define MORGANA_(\w+)[ \t]+(\S.*)$", header, re.MULTILINE):
        if re.fullmatch(r"[()\w* ]+", value):
            known[name] = product(value, known)
    return known


def enumerated(header):
    """The numbers of refusals that the header's enum names, by their names behind MORGANA_."""
    found = re.findall(r"^\s*MORGANA_(\w+) = (\d+)\b", header, re.MULTILINE)
    return {name: int(number) for name, number in found if int(number) != 0}


def hold_constants(hold):
    """The module's constants and numbers are the header's."""
    header = uncommented(read(HEADER))
    known = defined(header)
    for name in CONSTANTS:
        hold.equal(f"{name}, as the header defines it", known.get(name), getattr(morgana, name))
    numbers = {number.name: int(number) for number in morgana.Number}
    hold.equal("the numbers that the header names", enumerated(header), numbers)
    found = re.findall(r"^pub const (\w+): u32 = (\d+);$", read(RUST_NUMBERS), re.MULTILINE)
    hold.equal("the numbers of the Rust package", numbers, {name: int(value) for name, value in found})
    hold_rust_constants(hold, known)


def hold_rust_constants(hold, known):
    """The Rust package's constants are the header's."""
    found = re.findall(r"^pub const (\w+): \w+ = ([\w *]+);$", read(RUST_CONSTANTS), re.MULTILINE)
    rust = {}
    for name, value in found:
        rust[name] = product(value, rust)
    hold.equal("the constants of the Rust package", {name: known.get(name) for name in rust}, rust)
    hold.equal("constants of the Rust package that the header has", {*CONSTANTS, "STACK"}, set(rust))


def structures(header):
    """The fields of the header's replies, by their names behind Morgana."""
    found = re.findall(r"typedef struct Morgana(\w+) \{(.*?)\} Morgana\1;", header, re.DOTALL)
    return {
        name: [(field, TYPES[kind]) for kind, field in re.findall(r"(\w+) (\w+);", body)]
        for name, body in found
    }


def argument(text):
    """The ctypes type of an argument that the header declares."""
    kind, pointer = re.fullmatch(r"(?:const )?(\w+) (\*?)\w+", " ".join(text.split())).groups()
    return POINTERS[kind] if pointer else TYPES[kind]


def declared(header):
    """What the header's functions answer and take: the name of a reply or a type, and types."""
    found = re.findall(r"^(\w+)\s+(morgana_\w+)\(([^)]*)\);", header, re.MULTILINE)
    return {
        name: (answer, [argument(text) for text in arguments.split(",") if text.strip() != "void"])
        for answer, name, arguments in found
    }


def hold_functions(hold):
    """The module declares the functions and the replies as the header does."""
    header = uncommented(read(HEADER))
    replies, functions = structures(header), declared(header)
    hold.equal("functions", sorted(functions), sorted(morgana._FUNCTIONS))
    for name, (answer, arguments) in morgana._FUNCTIONS.items():
        header_answer, header_arguments = functions[name]
        hold.equal(f"the arguments of {name}", header_arguments, list(arguments))
        if header_answer in TYPES:
            hold.equal(f"the answer of {name}", TYPES[header_answer], answer)
        else:
            fields = replies[header_answer.removeprefix("Morgana")]
            hold.equal(f"the reply of {name}", fields, answer._fields_)


def upper(name):
    """KeyTooLong as KEY_TOO_LONG."""
    return re.sub(r"(?<=[a-z])(?=[A-Z])", "_", name).upper()


def hold_reasons(hold):
    """The names of the numbers are those of crates/refusal, which has those of other calls too."""
    found = re.findall(r"Reason::(\w+) => (\d+),", read(REASONS))
    reasons = {int(number): upper(name) for name, number in found}
    numbers = {int(number): number.name for number in morgana.Number}
    hold.equal("the others", OTHERS, set(reasons) - set(numbers))
    hold.equal("the names", {each: reasons.get(each) for each in numbers}, numbers)


def hold_sentences(hold):
    """Each number has the sentence of the Rust package, for every place."""
    found = re.findall(r'\((\d+), (_|\d+)\) => "(.*)",', read(SENTENCES))
    if len(found) < len(morgana.Number):
        raise Failed(f"wanted a sentence for each of {len(morgana.Number)} numbers, got {found}")
    sentences = {(int(number), place): sentence for number, place, sentence in found}
    for number in morgana.Number:
        for place in (0, 1, 2, 65536):
            wanted = sentences.get((number, str(place)), sentences.get((number, "_")))
            hold.equal(f"the sentence of {number}", wanted, morgana.Refused(number, place).sentence)


def hold_all(hold):
    """Everything of this file."""
    hold_reasons(hold)
    hold_sentences(hold)
    hold_functions(hold)
    hold_constants(hold)
