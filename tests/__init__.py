"""The tests that are written in Python, with its standard library alone. They are run from the repository's root:

    python3 -B -m tests.cases --check                   are the cases of the test programs up to date?
    python3 -B -m tests.two_models                      do the two models answer alike?
    python3 -B -m tests.keysheet target/bin/keysheet    does keysheet print what is unrolled?
    python3 -B -m tests.unroll < INPUT                  what does keysheet print for an input?
    python3 -B -m tests.python_module                   does the Python module answer rightly?
    python3 -B -m tests.install                         does what is installed work?
    python3 -B -m tests.examples                        do the examples answer alike?
    python3 -B -m tests.progress PROGRAM                does the tool show progress on a terminal?
    python3 -B -m tests.documents                       do the documents show what commands print?

Each package uses only those above it:

model       what the calls answer, worked out from the documents alone
unroll      the same once more, by whole matrices; it shares nothing with model
draw        what the sweeps are made of: numbers and keys, the same ones everywhere
cases       what the test programs of crates/ are run on and must print, by model
two_models  model and unroll, compared with each other
keysheet    the program keysheet, tested against unroll
python_module
            the Python module, tested against model
install     what `make install` leaves, used and removed
examples    the programs under examples/
progress    the tool's line of progress
documents   the documents, compared with what they speak of
"""
