# archives NAME..: builds target/staticlib/libNAME.a of each, unless ARCHIVES says that they are built from this text,
# as the test command does once it has them. program NAME: target/bin/NAME likewise. Sourced at the repository's root.
# The archive yadzvego is the crate yadzvego_c, which exports what the library yadzvego has. Every x86-64 processor runs
# what is built here: the kit by default asks for SSE4 and POPCNT.
archives() {
    [ "${ARCHIVES:-}" != built ] || return 0
    mkdir -p target/staticlib
    local archive crate
    for archive in "$@"; do
        crate=$archive
        [ "$archive" != yadzvego ] || crate=yadzvego_c
        (cd "crates/$crate" && rt lib --cpu x86-64) >"target/$archive.archive.log" 2>&1 || {
            tail -n 20 "target/$archive.archive.log"
            exit 1
        }
        cp "crates/$crate/out/lib$crate.a" "target/staticlib/lib$archive.a"
    done
}
program() {
    [ "${ARCHIVES:-}" != built ] || return 0
    mkdir -p target/bin
    # rt builds a program as it runs it: what it says of an empty input is not asked here.
    rm -f "crates/$1/out/$1"
    (cd "crates/$1" && rt run --cpu x86-64) </dev/null >"target/$1.program.log" 2>&1 || [ -x "crates/$1/out/$1" ] || {
        tail -n 20 "target/$1.program.log"
        exit 1
    }
    cp "crates/$1/out/$1" "target/bin/$1"
}
