#!/bin/sh
# Builds the proved program, build/babel-dump, where it is missing or older than its sources:
#
#     tools/proved.sh [--is-current]
#
# With --is-current it builds nothing, and its status is 0 if there is nothing to build.
set -eu

top=$(CDPATH= cd -- "$(dirname -- "$0")/.." && pwd)
crate=$top/crates/babel_dump_program
program=$top/build/babel-dump
log=$top/build/build.log
# How long a build takes, which tools/unproved.py reads here.
takes="an hour to an hour and a half"

# Whether the program is there, and no older than what it is made and proved from, without the
# crates of tests.
is_current() {
    [ -x "$program" ] || return 1
    newer=$(find "$top/crates" "$top/crates.txt" \( -name out -o -name '*_tests' \) -prune -o \
        -type f \( -name '*.rt' -o -name '*.antt' -o -name crates.txt \) -newer "$program" -print)
    [ -z "$newer" ]
}

# The crates that are proved, the lowest first.
crates() {
    sed -n '/_tests:/d; s/^\([a-z][a-z_]*\):.*/\1/p' "$top/crates.txt"
}

# Keeps what rt says, and tells from it how far the build is.
tell_progress() {
    told=0 proved="the first crate"
    while IFS= read -r line; do
        printf '%s\n' "$line" >>"$log"
        case $line in
            'rt: chose --jobs '*)
                name=${line##* } told=0
                number=$(crates | grep -nx "$name" | cut -d : -f 1)
                proved="$name (crate $number of $(crates | wc -l))"
                say "proving $proved"
                ;;
            'so far: '*' functions checked'*)
                line=${line#so far: }
                say "proving $proved: ${line%% checked*}"
                ;;
        esac
    done
}

# Says how far the build is, unless that was said a moment ago.
say() {
    now=$(date +%s)
    [ $((now - told)) -ge 20 ] || return 0
    told=$now
    echo "babel-dump: $1, $(((now - begun) / 60)) min so far" >&2
}

build() {
    command -v rt >/dev/null 2>&1 ||
        fail 127 "cannot build: there is no command rt on the PATH (the Rattle kit)"
    echo "babel-dump: building (once; it takes $takes)" >&2
    begun=$(date +%s)
    : >"$log"
    : >"$log.begun"
    rm -f "$log.failed"
    { (cd "$crate" && rt run -- --help) </dev/null 2>&1 || : >"$log.failed"; } | tell_progress
    if [ -e "$log.failed" ]; then
        tail -n 20 "$log" >&2
        fail 126 "the build failed; all it said is in $log"
    fi
    # What is edited during the build stays newer than the program.
    cp "$crate/out/babel_dump_program" "$program.new"
    touch -r "$log.begun" "$program.new"
    mv -f "$program.new" "$program"
    rm -f "$log.begun"
}

fail() {
    echo "babel-dump: $2" >&2
    exit "$1"
}

if is_current; then
    exit 0
elif [ "${1-}" = --is-current ]; then
    exit 1
fi
# Another build may have ended by the time that this one has the lock.
mkdir -p "$top/build"
exec 9>"$top/build/lock"
if command -v flock >/dev/null 2>&1 && ! flock -n 9; then
    echo "babel-dump: waiting for the build that is under way" >&2
    flock 9
fi
is_current || build 9>&-
