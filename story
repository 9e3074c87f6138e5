#!/usr/bin/env bash
# The main job: proves and builds the bench program, and plays it a story. 'story FILE' plays another script.
set -eu
cd "$(dirname "$0")"
script=${1:-stories/low.script}
if ! command -v rt >/dev/null; then
    echo "story: the Rattle toolchain is missing: its command 'rt' is not on the PATH" >&2
    exit 2
fi
[ -r "$script" ] || { echo "story: can't read $script" >&2; exit 2; }
log=$(mktemp)
trap 'rm -f "$log"' EXIT
echo "Proving the cache and the program over it (some minutes the first time) .." >&2
if ! (cd crates/bench && rt run </dev/null) >"$log" 2>&1; then
    cat "$log" >&2
    exit 1
fi
scripts/run-program bench <"$script" >"$log"
# Each command stands above its answer; a picture's lines begin with two spaces.
awk -v answers="$log" '
    BEGIN { more = (getline answer < answers) > 0 }
    /^#/ { sub(/^# ?/, ""); print; next }
    /^ *$/ { print ""; next }
    {
        print "    > " $0
        do { print "      " answer; more = (getline answer < answers) > 0 } while (more && answer ~ /^  /)
    }' "$script"
