"""Writes what the test programs crates/cases, crates/cases_quadratic and crates/products are run on and what they must
print, from 01-scope.md, from E2, E4, E6, E7 and E9 of 02-change-requests.md and from eq as 004 prints it alone.

usage: python3 -B -m tests.cases [--check | --help]

Without --check it writes stdin and stdout of each program; with it, it says whether they are up to date and exits 1 where
they are not. The cases of crates/cases_quadratic, over p², are in quadratic/, and those of crates/products, on eq, in
products.py; what follows is of crates/cases. Edges that 01 and 02 word are written with the answer that these give: those
of evaluate and cell in evaluations.py and refusals.py, those of compare in comparisons.py and comparison_refusals.py, and of
unequal shapes in grown/, those of edition 2 and of the move in editions/, those of the count of factors in factors.py, and
those of shorter in shorters.py. Every answer, of these and of the sweeps around them, is worked out by tests/model, and the
two must agree. What compare answers at every point of a list of values is known in closed form alone (counts.py and
grown/counts.py).
"""

import sys

from .products import product_cases
from .programs import CRATES, cases_over_p_squared, files_of, public_cases


def main(arguments):
    """Writes the files of each program, or compares them with what it would write."""
    if arguments == ["--help"]:
        print(__doc__.strip())
        return 0
    if arguments not in ([], ["--check"]):
        print(__doc__.split("\n\n")[1], file=sys.stderr)
        return 2
    programs = {"cases": public_cases(), "cases_quadratic": cases_over_p_squared(), "products": product_cases()}
    files = {}
    for name, cases in programs.items():
        files |= files_of(CRATES / name, cases.inputs)
    for path, content in files.items():
        if not arguments:
            path.write_bytes(content)
        elif not path.exists() or path.read_bytes() != content:
            name = f"{path.name} of crates/{path.parent.name}"
            print(f"cases: {name} is not what the documents give: run python3 -B -m tests.cases", file=sys.stderr)
            return 1
    return 0


if __name__ == "__main__":
    sys.exit(main(sys.argv[1:]))
