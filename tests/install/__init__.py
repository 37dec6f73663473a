"""What `make install` installs, and that `make uninstall` removes it. __main__ says how it went.

runs      the installations: below a prefix, into a stage, and those that are refused
places    the files that an installation must have, and those that it has
uses      what is installed, used: by programs in C, from Python, and as programs
commands  commands that are run, and failures
"""
