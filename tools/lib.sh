# shellcheck shell=sh
# Sourced by quiver and by the tests, with $top set to the repository's folder and $me to the name that messages begin with: a temporary folder, and programs
# that are built once and kept under target/ until something of their sources is newer.

tool=$top/target/rust/release/quivertext
second=$top/target/rust/release/second
work=

# stop MESSAGE: there is no answer
stop() {
    echo "$me: $1" >&2
    exit 2
}

need() {
    command -v "$1" >/dev/null 2>&1 || stop "no '$1' on the PATH: install $2"
}

# temporary: makes $work, which is gone when the script ends, whatever ends it
temporary() {
    trap 'exit 129' HUP
    trap 'exit 130' INT
    trap 'exit 143' TERM
    trap '[ -z "$work" ] || rm -rf "$work"' EXIT
    work=$(mktemp -d) || stop "no temporary directory"
}

# stale MADE SOURCE..: what is made is not there, or something of its sources is newer
stale() {
    made=$1
    shift
    [ ! -f "$made" ] || [ -n "$(find "$@" -name out -prune -o -type f -newer "$made" -print | head -n 1)" ]
}

# on_rust FOLDER VERB WORDS..: cargo on a folder of this repository; what it builds is kept in one folder for all
on_rust() {
    folder=$1 verb=$2
    shift 2
    cargo "$verb" --quiet --offline --locked --manifest-path "$top/$folder/Cargo.toml" --target-dir "$top/target/rust" "$@"
}

# build_rust FOLDER: the program that has the folder's name ($tool, $second), quietly unless it fails
build_rust() {
    built=$top/target/rust/release/$(basename "$1")
    stale "$built" "$top/$1/src" "$top/$1/Cargo.toml" "$top/$1/Cargo.lock" || return 0
    need cargo "Rust"
    : >"$work/begun"
    on_rust "$1" build --release >&2 || stop "$1 does not build"
    # cargo leaves a program alone that would be the same again
    touch -r "$work/begun" "$built"
}

# proved_anew TARGET CRATE VERB: has rt prove and make a crate, unless the file TARGET that it makes is newer than all sources. What has not changed since the
# last time is not proved again, but what rt says is shown: it may take long.
proved_anew() {
    stale "$1" "$top/crates" "$top/crates.txt" || return 1
    need rt "the Rattle toolchain"
    echo "$me: proving and building $2; from nothing this takes some minutes, later only what has changed" >&2
    : >"$work/begun"
    (cd "$top/crates/$2" && rt "$3" </dev/null) >&2 || stop "$2 is not proved"
}

# put_there MADE TARGET: keeps what rt has made under target/
put_there() {
    [ -f "$1" ] || stop "rt left no $1"
    mkdir -p "$(dirname "$2")" && cp "$1" "$2" && touch -r "$work/begun" "$2" || exit 2
}

# build_proved CRATE: the program target/bin/CRATE, proved first. tools/proved runs it. (rt runs what it builds: here on no input.)
build_proved() {
    proved_anew "$top/target/bin/$1" "$1" run || return 0
    put_there "$top/crates/$1/out/$1" "$top/target/bin/$1"
}

# build_archive: the archive target/staticlib/libplanner.a that C links with, proved first
build_archive() {
    proved_anew "$top/target/staticlib/libplanner.a" planner_c lib || return 0
    put_there "$top/crates/planner_c/out/libplanner_c.a" "$top/target/staticlib/libplanner.a"
}
