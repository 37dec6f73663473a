# The commands of the README.
.PHONY: run build test bench fmt install uninstall capitals

# Proves every crate and runs the test programs.
run:
	@rt all test

# Builds the libraries for C and Rust, keysheet and morgana.
build:
	@tools/build

# Runs every test.
test:
	@tools/test

# Measures the library beside an independent implementation in Rust.
bench:
	@tools/bench

fmt:
	@for crate in crates/*/; do (cd "$$crate" && rt fmt) || exit 1; done
	@cd host && cargo fmt
	@cd examples/rust && cargo fmt

# Installs what people use below PREFIX (/usr/local), or removes it again. DESTDIR is put before
# each path, and PYTHONDIR is the folder of the Python module.
install: capitals
	@tools/install

uninstall: capitals
	@tools/install --remove

# The names of the variables are easily mistaken, and without PREFIX files go to /usr/local.
capitals:
	@test -z '$(prefix)$(destdir)' || { echo 'PREFIX is written in capitals, and so is DESTDIR' >&2; exit 1; }
