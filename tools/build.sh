#!/usr/bin/env bash
# Proves and builds programs and the static library, and puts them where callers and tests look: target/bin/NAME and target/staticlib/libturning.a.
#
#   tools/build.sh           all of them
#   tools/build.sh NAME..    these
set -euo pipefail
cd "$(dirname "$(readlink -f "${BASH_SOURCE[0]}")")/.."
mkdir -p target/bin target/staticlib
log=$(mktemp)
trap 'rm -f "$log"' EXIT
programs() { for main in crates/*/src/main.rt; do basename "${main%/src/main.rt}"; done; }
[ $# -gt 0 ] || set -- $(programs) turning
for name in "$@"; do
    if [ "$name" = turning ]; then
        (cd crates/turning && rt lib) >"$log" 2>&1 || { cat "$log"; exit 1; }
        cp crates/turning/out/libturning.a target/staticlib/
    else
        # rt builds a program by running it; what it writes is compared elsewhere
        (cd "crates/$name" && rt run) </dev/null >"$log" 2>&1 || { cat "$log"; exit 1; }
        cp "crates/$name/out/$name" target/bin/
    fi
done
