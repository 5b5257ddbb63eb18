#!/bin/sh
# A file that cannot be opened counts as empty. `rt ci` runs upcheck on the files of its data/, of which none is missing,
# so here it is run where some are.
set -u
cd "$(dirname "$0")/.." || exit 2
data=$PWD/crates/upcheck/data
program=$PWD/crates/upcheck/out/upcheck
[ -x "$program" ] || (cd crates/upcheck && rt run) > /dev/null 2>&1
work=$(mktemp -d) || exit 2
trap 'rm -rf "$work"' EXIT
failed=0

# try EXPECTED FILE..: the line that upcheck prints where only these files of data/ are.
try() {
    expected=$1
    shift
    rm -rf "$work/run"
    mkdir "$work/run" || exit 2
    for file in "$@"; do
        cp "$data/$file" "$work/run/" || exit 2
    done
    said=$(cd "$work/run" && timeout 60 "$program" 2>&1) || said="status $?: $said"
    if [ "$said" = "$expected" ]; then
        echo "files: ${*:-none}: $said, as it must be"
    else
        echo "files: ${*:-none}: expected $expected, said $said"
        failed=1
    fi
}

try 'PLAN 0 2' problem answer
try 'REFUSED answer 5 13' problem
try 'REFUSED problem 1 2' answer certificate
try 'REFUSED problem 1 2'
[ "$failed" = 0 ] && echo 'files: ok'
exit "$failed"
