#!/bin/sh
# A verdict from a session that is open, a second verdict from one that was refuted, and a session made by hand are
# compile errors. Such an edit never reaches the prover, so it cannot be a must-fail edit: here a small module inside
# a copy of the crates is edited, and the front end must refuse each edit with the error that is meant, and must not
# refuse the module as it stands. It proves five crates where nothing is kept of them, so it is no part of the gate.
set -u
cd "$(dirname "$0")/.." || exit 2
work=$(mktemp -d) || exit 2
trap 'rm -rf "$work"' EXIT
git init -q "$work" && mkdir "$work/crates" || exit 2
printf 'text:\nproblem: text\nclauses: text\ncertificate: text\nverdict: text problem clauses certificate\nuses: verdict\n' > "$work/crates.txt"
for crate in text problem clauses certificate verdict; do
    mkdir "$work/crates/$crate"
    for part in src specs proofs; do
        cp -r "crates/$crate/$part" "$work/crates/$crate/$part" || exit 2
    done
done
mkdir -p "$work/crates/uses/src" || exit 2
failed=0

# try NAME EXPECTED: the function stands on standard input. EXPECTED is the error's name, or 'none'.
try() {
    {
        echo '//! A use of a session.'
        echo '#![tactic(auto)]'
        echo
        echo 'use verdict::outcome::Verdict;'
        echo 'use verdict::session::{Claim, Open, Refuted};'
        echo
        cat
    } > "$work/crates/uses/src/lib.rt"
    (cd "$work/crates/uses" && rt check) > "$work/out" 2>&1
    found=$(sed -n 's/.*src\/lib\.rt:.*error\[\([a-z0-9-]*\)\].*/\1/p' "$work/out" | sort -u | tr '\n' ' ')
    if [ -z "$found" ] && grep -q '^fn uses::end: proved' "$work/out"; then
        found='none '
    fi
    if [ "$found" = "$2 " ]; then
        echo "sessions: $1: $2, as it must be"
    else
        echo "sessions: $1: expected $2, found $found"
        sed -n '1,8p' "$work/out"
        failed=1
    fi
}

try 'a verdict from a refuted session' none <<'BODY'
pub fn end(session: Open) -> Option<Verdict> {
    match session.close() {
        Ok(refuted) => Some(refuted.verdict()),
        Err(_) => None,
    }
}
BODY

try 'a verdict from an open session' unknown-method <<'BODY'
pub fn end(session: Open) -> Verdict {
    session.verdict()
}
BODY

try 'two verdicts from one session' borrow-e0382 <<'BODY'
pub fn end(refuted: Refuted) -> (Verdict, Verdict) {
    (refuted.verdict(), refuted.verdict())
}
BODY

try 'a session made by hand' private-field <<'BODY'
pub fn end(claim: Claim) -> Refuted {
    Refuted { claim }
}
BODY

[ "$failed" = 0 ] && echo 'sessions: ok'
exit "$failed"
