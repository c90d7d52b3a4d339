# shellcheck shell=sh
# Sourced by every runner of tests/, with $top set to the repository's folder: a temporary folder $work, cases that are counted, and what they compare by. A
# runner prints a line for each case and ends with `finish`.
me=tests
. "$top/tools/lib.sh"
temporary
passed=0 failed=0

# stop MESSAGE: something that all cases need is not there
stop() {
    echo "$1; none of these tests was run"
    echo "0 passed, 1 failed"
    exit 1
}

# judge TITLE STATUS: counts a case. (A title with $(..) in it changes $? before it is read, in some shells.)
judge() {
    if [ "$2" = 0 ]; then
        echo "$1: passed"
        passed=$((passed + 1))
    else
        echo "$1: FAILED"
        failed=$((failed + 1))
    fi
}

# finish: the last line, and the end
finish() {
    echo "$passed passed, $failed failed"
    [ "$failed" = 0 ]
    exit
}

# same WHAT IS-IT SHOULD-BE: compares two texts and shows them where they differ
same() {
    [ "$2" = "$3" ] && return
    printf '%s\n  is        %s\n  should be %s\n' "$1" "$2" "$3"
    return 1
}

# has WHAT TEXT PART: the text has the part
has() {
    case $2 in
    *"$3"*) return ;;
    esac
    printf '%s\n  is          %s\n  should have %s\n' "$1" "$2" "$3"
    return 1
}

# quietly COMMAND..: shows what a command said only where it fails
quietly() {
    "$@" >"$work/said" 2>&1 && return
    tail -n 40 "$work/said"
    return 1
}

# example KERNEL NAME: the numbers of a kernel's 'example input' or 'example output'
example() {
    sed -n "s/^; example $2: *//p" "$1"
}

# vector NAME FILE: packs a vector
vector() {
    "$tool" words "$2" "$(sed 's/#.*//' "$top/tests/vectors/$1.txt")"
}

# crates_copy CRATE..: the sources of these crates in $work/repository, each with what was proved of it here
crates_copy() {
    rm -rf "$work/repository"
    mkdir -p "$work/repository/crates"
    for crate; do
        cp -r "$top/crates/$crate" "$work/repository/crates/"
        grep "^$crate[ :]" "$top/crates.txt" >>"$work/repository/crates.txt"
    done
}

# edited EDIT FOLDER [FUNCTION..]: makes the edit in FOLDER: each text 'old:', which stands once in the file of the 'file:' line above, becomes the text 'new:'. With
# functions, those places alone that stand under a line 'refuses: FUNCTION' of one of them. Fails where an old text does not stand there once.
edited() {
    edit=$1 folder=$2
    shift 2
    awk -v root="$folder/" -v only=" $* " '
        function count(text, part,   n, at) {
            n = 0
            while ((at = index(text, part)) > 0) { n++; text = substr(text, at + length(part)) }
            return n
        }
        /^file: / { file = root substr($0, 7); if (!(file in texts)) { while ((getline l < file) > 0) texts[file] = texts[file] l "\n"; close(file) } }
        /^refuses: / { taken = only == "  " || index(only, " " substr($0, 10) " ") }
        /^old: / { old = substr($0, 6) }
        /^new:/ {
            if (marked && !taken) next
            new = substr($0, 6)
            hits = count(texts[file], old)
            if (hits != 1) { print hits " times and not once in " file ": " old; bad = 1; next }
            at = index(texts[file], old)
            texts[file] = substr(texts[file], 1, at - 1) new substr(texts[file], at + length(old))
        }
        BEGIN { marked = only != "  " }
        END {
            if (bad) exit 1
            for (file in texts) { printf "%s", texts[file] >file; close(file) }
        }' "$edit"
}
