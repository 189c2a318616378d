# What the scripts of this folder build; they source it at the repository's root. The Rust is read from $GEOP_SRC, by
# default ../shared/docs/src beside the repository. It is copied to target/compare with the edits that
# compare/prepare.py names, and built by rustc alone, as for release.

source compare/archives.sh

# The archives that hold what compare/src/run_c.rs and rust/src/archive.rs declare.
archives=(run_c yadzvego)

out=target/compare
geop=${GEOP_SRC:-../shared/docs/src}
release=(--edition 2024 -C opt-level=3 -C debug-assertions=off -C overflow-checks=off)

# Why nothing can be built here; nothing where it can.
missing() {
    if [ ! -d "$geop/core/geop-core-math/src" ]; then
        echo "no Rust source at $geop (set GEOP_SRC)"
    elif ! command -v rustc >/dev/null; then
        echo "no rustc"
    elif ! command -v python3 >/dev/null; then
        echo "no python3"
    fi
}

build_archives() {
    mkdir -p "$out"
    archives "${archives[@]}"
}

# build_program FOLDER MAIN NAME: the program NAME from its file MAIN, beside the Rust that prepare.py wrote to
# FOLDER/geop_core_math
build_program() {
    rustc "${release[@]}" --cap-lints allow --crate-type rlib --crate-name geop_core_math \
        --out-dir "$1" "$1/geop_core_math/lib.rs"
    rustc "${release[@]}" --crate-name "$3" --extern "geop_core_math=$1/libgeop_core_math.rlib" \
        -L target/staticlib "${archives[@]/#/-lstatic=}" -o "$1/$3" "$2"
}
