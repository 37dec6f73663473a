"""The documents, compared with what they speak of. __main__ runs every check, and says how it went.

sessions     the commands in README.md and docs/, run, and what they print
figures      the numbers and names in the documents, looked for again, and demand 3 as README.md quotes it
definitions  the definitions that docs/TRUST.md lists, followed from the contracts
samples      bytes, names and programs that the documents show
manual       the manual page beside the help text
"""
