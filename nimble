#!/usr/bin/env bash
# Runs the program with the words, standard input and standard output as they are, and ends with its
# status. Where there is no build of these sources yet, it first proves and builds them.
set -euo pipefail

root="$(cd "$(dirname "$(readlink -f "${BASH_SOURCE[0]}")")" && pwd)"
sources="$(cd "$root" && find HANDLES crates.txt crates/*/src crates/*/specs crates/*/proofs -type f | LC_ALL=C sort | xargs sha256sum | sha256sum | cut -c1-32)"
program="$root/.build/$sources/nimble"

build() {
    echo "nimble: there is no build of these sources yet; proving and building them, which takes an hour or two where nothing is kept" >&2
    if ! command -v rt >/dev/null; then
        echo "nimble: this takes the command rt of the Rattle kit, which isn't here" >&2
        exit 127
    fi
    local log made="$root/crates/nimble/out/nimble"
    log="$(mktemp)"
    rm -f "$made"
    # a run of the first case proves, builds and tries the program
    if ! (cd "$root/crates/nimble" && rt run -- replay) <"$root/cases/first_path.script" >/dev/null 2>"$log" || [ ! -x "$made" ]; then
        tail -n 40 "$log" >&2
        echo "nimble: not proved or not built; the whole output is in $log" >&2
        exit 1
    fi
    rm -rf "$log" "$root/.build"
    mkdir -p "$root/.build/$sources"
    cp "$made" "$program.new"
    mv "$program.new" "$program"
    echo "nimble: proved and built" >&2
}

[ -x "$program" ] || build
exec "$program" "$@"
