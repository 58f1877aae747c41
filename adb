#!/usr/bin/env bash
# Runs the program `adb` in the caller's folder, with the caller's streams, words and exit status.
# Where it isn't built from these sources yet, it is proved and built first.
root=$(cd "$(dirname "$(readlink -f "${BASH_SOURCE[0]}")")" && pwd) || exit 1
program=$root/crates/adb/out/adb

# Whether no source is newer than the program.
is_current() {
    [ -x "$program" ] || return 1
    local newer
    newer=$(find "$root/crates.txt" "$root"/crates/*/src "$root"/crates/*/specs "$root"/crates/*/proofs \
        -newer "$program" -print -quit 2>/dev/null)
    [ -z "$newer" ]
}

if ! is_current; then
    echo "adb: proving and building the program from its sources; a first run takes minutes" >&2
    if ! command -v rt >/dev/null; then
        echo "adb: the toolchain's command rt isn't in the path" >&2
        exit 1
    fi
    log=$(mktemp) || exit 1
    # An empty script builds the program, and runs it to no effect.
    if ! (cd "$root/crates/adb" && rt run -- replay) </dev/null >"$log" 2>&1; then
        cat "$log" >&2
        rm -f "$log"
        echo "adb: not built" >&2
        exit 1
    fi
    rm -f "$log"
    touch "$program"
    echo "adb: built" >&2
fi
exec "$program" "$@"
