# Sourced by the run scripts, from the repository's root: where programs are built, the archive that they link, and how they are compiled.
# ORACLE_OUT names another build folder; STAR_SEARCH_LIB a folder that has the archives, else `rt` makes them.
out=${ORACLE_OUT:-target/oracle}
lib=${STAR_SEARCH_LIB:-target/staticlib}

# Makes the archive of a crate, unless a folder that has it is named.
archive() { [ -n "${STAR_SEARCH_LIB:-}" ] || tools/staticlib "$1" >&2; }

# Compiles one crate against the archives and the crates built before it.
compile() { rustc --edition 2021 -O -C codegen-units=1 -L "$out" -L native="$lib" --out-dir "$out" "$@"; }

# Makes the oracle, the model, the cases and the binding over the archive.
prepare() {
    archive star_search
    oracle/compare/build >&2
    compile --crate-name star_search --crate-type rlib -l static=star_search bindings/rust/src/lib.rs
    compile --crate-name lend --crate-type rlib --extern star_search --extern model oracle/trials/lend.rs
}

# Compiles a program that uses them: its name, its file, and further words for the compiler.
program() { compile --crate-name "$1" --crate-type bin --extern star_search --extern lend --extern cases --extern model --extern tetra3 "${@:2}"; }

# Says how a script is used, from its own head, and ends with status 2.
usage() {
    sed -n 's/^#   /usage: /p' "$1" >&2
    exit 2
}
