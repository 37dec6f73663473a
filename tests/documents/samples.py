"""What the documents show of bytes, names and programs, compared with the real ones."""

import re
import subprocess
import tempfile

from .figures import text_of
from .sessions import INDENT, Failed

# What stands before and behind the samples of README.md to make them whole.
C_PROGRAM = """#include <morgana.h>
#include <stdio.h>
void sample(const uint8_t *key, size_t key_length, const uint32_t *rows, size_t rows_length,
            const uint32_t *columns, size_t columns_length);
void sample(const uint8_t *key, size_t key_length, const uint32_t *rows, size_t rows_length,
            const uint32_t *columns, size_t columns_length)
{
%s
}
"""
RUST_PROGRAM = """use morgana::{Field, RandomPoints};
pub fn sample(key: &[u8]) -> Result<(), Box<dyn std::error::Error>> {
%s
Ok(())
}
"""


def block(name, start):
    """The indented block of a document that begins with a text."""
    lines = text_of(name).split(f"\n{INDENT}{start}")
    if len(lines) != 2:
        raise Failed(f"{name} has {len(lines) - 1} blocks that begin with {start!r}")
    text = start + lines[1].split("\n\n")[0]
    return text.replace(f"\n{INDENT}", "\n")


def accepted(what, *command):
    """Wants a command to end well."""
    done = subprocess.run(command, capture_output=True, text=True, timeout=120)
    if done.returncode != 0:
        raise Failed(f"{what}:\n{done.stderr}")


def programs():
    """The samples in C and in Rust are accepted by their compilers."""
    with tempfile.TemporaryDirectory() as folder:
        for name, text in (
            ("sample.c", C_PROGRAM % block("README.md", "uint32_t sheet[MORGANA_SHEET];")),
            ("sample.rs", RUST_PROGRAM % block("README.md", "let counts = morgana::check(&key)?;")),
        ):
            with open(f"{folder}/{name}", "w", encoding="utf-8") as file:
                file.write(text)
        strict = ["-std=c99", "-Wall", "-Wextra", "-Wpedantic", "-Werror", "-fsyntax-only"]
        accepted("README.md's C", "cc", *strict, "-Ihost/include", f"{folder}/sample.c")
        library = ["--extern", "morgana=target/host/release/libmorgana.rlib", "-L", "native=target/staticlib"]
        form = ["--edition", "2021", "--crate-type", "lib", "--emit", "metadata", "--out-dir", folder]
        accepted("README.md's Rust", "rustc", *form, *library, f"{folder}/sample.rs")


def bytes_of_format():
    """The key that docs/FORMAT.md goes through byte by byte is the one that it then writes."""
    text = text_of("docs/FORMAT.md")
    table = text.split("## A key byte by byte")[1].split("The dense matrices")[0]
    rows = re.findall(r"^ +(\d+)  ((?:[0-9a-f]{2} )*[0-9a-f]{2}) ", table, re.MULTILINE)
    key = b""
    for offset, written in rows:
        if int(offset) != len(key):
            raise Failed(f"docs/FORMAT.md has an offset {offset}, and {len(key)} bytes stand before it")
        key += bytes.fromhex(written)
    wanted = text.split("unhex > squares.key <<END\n")[1].split(f"{INDENT}END")[0]
    if key != bytes.fromhex(wanted):
        raise Failed(f"docs/FORMAT.md goes through {key.hex()}, and writes {wanted}")


def records_of_format():
    """The records that docs/FORMAT.md lists have the kinds and the widths of crates/records/specs/Layout.antt."""
    table = text_of("docs/FORMAT.md").split("## Records")[1].split("## Order")[0]
    shown = {}
    for kind, fields, length in re.findall(r"^\| (\d\d) \| [^|]+ \| ([^|]+) \| (\d+) \|$", table, re.MULTILINE):
        shown[kind] = [int(width) for width in re.findall(r"\((\d+)\)", fields)]
        if int(length) != 1 + sum(shown[kind]):
            raise Failed(f"docs/FORMAT.md gives kind {kind} {length} bytes")
    layout = re.findall(r"\(0x(\d\d), ([\d ∷]*)\[\]\)", text_of("crates/records/specs/Layout.antt"))
    wanted = {kind: [int(width) for width in re.findall(r"\d+", widths)] for kind, widths in layout}
    if shown != wanted:
        raise Failed(f"docs/FORMAT.md has the records {shown}, and they are {wanted}")


def members():
    """docs/JSON.md names every member and every status that the tool prints, and no other."""
    code = "".join(text_of(f"host/src/bin/morgana/{name}.rs") for name in ("json", "points", "records"))
    printed = set(re.findall(r'(?:string|number|truth|value)\(\s*"(\w+)"', code))
    printed |= set(re.findall(r'\("(\w+)", ', text_of("host/src/bin/morgana/json.rs")))
    printed |= set(re.findall(r'status\("(\w+)"\)', code)) | {"status"}
    named = set(re.findall(r'`"?(\w+)"?`', text_of("docs/JSON.md")))
    # Values that are no names of members.
    code_values = set(re.findall(r'"(\w+)"', code)) | {"check", "show", "evaluate", "price", "move", "compare"}
    if not printed <= named:
        raise Failed(f"docs/JSON.md does not name {sorted(printed - named)}")
    if not named <= code_values | {"accepted", "morgana"}:
        raise Failed(f"docs/JSON.md names {sorted(named - code_values)}")


def check():
    """Compares all of it."""
    programs()
    records_of_format()
    bytes_of_format()
    members()
