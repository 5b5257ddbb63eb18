#!/bin/sh
# Letting a trial's mark go, and using it twice, are compile errors. Such an edit never reaches the prover, so
# it cannot be a must-fail edit: here a small program over the real trait is edited, and the front end must refuse
# each edit with the error that is meant, and must not refuse the program as it stands.
set -u
cd "$(dirname "$0")/.." || exit 2
work=$(mktemp -d) || exit 2
trap 'rm -rf "$work"' EXIT
# A repository of its own, with the real crates and one module more.
git init -q "$work" && mkdir "$work/crates" && printf 'text:\nclauses: text\n' > "$work/crates.txt" || exit 2
for crate in text clauses; do
    mkdir "$work/crates/$crate"
    for part in src specs proofs; do
        cp -r "crates/$crate/$part" "$work/crates/$crate/$part" || exit 2
    done
done
echo 'pub mod marks;' >> "$work/crates/clauses/src/lib.rt"
failed=0

# try NAME EXPECTED: the function body comes on standard input. EXPECTED is the error's name, or 'none'.
try() {
    {
        echo 'use crate::base::ClauseBase;'
        echo 'use crate::fault::BaseFault;'
        echo
        echo 'pub fn follows<B: ClauseBase>(base: &mut B, clause: &[i32]) -> Result<bool, BaseFault> {'
        cat
        echo '}'
    } > "$work/crates/clauses/src/marks.rt"
    (cd "$work/crates/clauses" && rt check --only marks::follows) > "$work/out" 2>&1
    found=$(sed -n 's/.*src\/marks\.rt:.*error\[\([a-z0-9-]*\)\].*/\1/p' "$work/out" | sort -u | tr '\n' ' ')
    others=$(grep -v 'src/marks\.rt' "$work/out" | grep -c 'error\[')
    # What passes the front end goes on to the prover.
    if [ -z "$found" ] && grep -q '^only=1 proved=1' "$work/out"; then
        found='none '
    fi
    if [ "$found" = "$2 " ] && [ "$others" = 0 ]; then
        echo "marks: $1: $2, as it must be"
    else
        echo "marks: $1: expected $2, found $found"
        sed -n '1,5p' "$work/out"
        failed=1
    fi
}

try 'a mark that is given back' none <<'BODY'
    let mark = base.start(clause)?;
    let answer = base.run();
    base.finish(mark);
    answer
BODY

try 'a mark that is let go' linear-value-let-go <<'BODY'
    let mark = base.start(clause)?;
    let answer = base.run();
    answer
BODY

try 'a mark that is let go on one way out' linear-value-let-go <<'BODY'
    let mark = base.start(clause)?;
    let answer = base.run()?;
    base.finish(mark);
    Ok(answer)
BODY

try 'a mark that is not bound' linear-value-let-go <<'BODY'
    let _ = base.start(clause)?;
    base.run()
BODY

try 'a mark that is used twice' borrow-e0382 <<'BODY'
    let mark = base.start(clause)?;
    let answer = base.run();
    base.finish(mark);
    base.finish(mark);
    answer
BODY

[ "$failed" = 0 ] && echo 'marks: ok'
exit "$failed"
