#!/usr/bin/env bash
# Runs the proved program with the words given, from the caller's folder, and ends with its status.
# Where a source is newer than the program, the program is proved and built first, by the toolchain's command `rt`.
# Status 70 says that this failed; docs/LANGUAGE.md lists the program's own statuses.
set -u
top=$(cd "$(dirname "$(readlink -f "${BASH_SOURCE[0]}")")" && pwd)
crate=$top/crates/pb
log=$crate/out/build.log

is_stale() {
    [ ! -x "$crate/out/pb" ] || [ -n "$(find "$top/crates" "$top/crates.txt" -path '*/out' -prune -o \
        -type f \( -name '*.rt' -o -name '*.antt' -o -name crates.txt \) -newer "$crate/out/pb" -print -quit)" ]
}

# In the folder of a crate, `rt all check` proves that crate and those below it, several at a time. `rt run` takes what
# was proved, and builds and runs the program: here it checks an example.
build() {
    cd "$crate" && rt all check --jobs "$(nproc)" && rt run -- check data/double.pb
}

# How many crates the program stands on, itself among them.
count_crates() {
    awk -F: 'function visit(name, names, n) {
                 if (!(name in below) || name in seen) return
                 seen[name] = 1; count++
                 for (n = split(below[name], names, " "); n > 0; n--) visit(names[n])
             }
             { sub(/#.*/, ""); below[$1] = $2 }
             END { visit("pb"); print count }' "$top/crates.txt"
}

tell_progress() {
    local count
    count=$(count_crates)
    while sleep 15 >/dev/null 2>&1; do
        echo "pb: $(grep -c '^== pb' "$log") of $count crates done, $SECONDS s" >&2
    done
}

fail() {
    echo "pb: $1" >&2
    exit 70
}

if is_stale; then
    command -v rt >/dev/null || fail "the program isn't built, and the toolchain's command rt isn't on the PATH"
    echo "pb: proving and building the program; from nothing this takes about an hour on four processors" >&2
    mkdir -p "$crate/out"
    : >"$log"
    tell_progress &
    teller=$!
    disown
    trap 'kill "$teller" 2>/dev/null' EXIT
    (build) </dev/null >"$log" 2>&1 || fail "the program couldn't be proved and built; what rt said is in $log"
    touch "$crate/out/pb"
    kill "$teller"
    trap - EXIT
fi
exec "$crate/out/pb" "$@"
