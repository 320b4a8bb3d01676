# Sourced by run-outside and run-nightly in the root folder: builds target/staticlib/libronchhek.a, or takes the archive that LIB
# names, and sets `out`, the folder for the programs.
if [ -z "${LIB:-}" ]; then
    tools/build ronchhek
    LIB=target/staticlib/libronchhek.a
fi
out=target/outside
mkdir -p $out

# program NAME: compiles tests/outside/NAME.rs with the library.
program() {
    rustc --edition 2021 -D warnings -C opt-level=2 -C debug-assertions=on \
        "tests/outside/$1.rs" -o "$out/$1" -C link-arg="$LIB"
}
