#!/usr/bin/env bash
# Tries programs that misuse a lease, and expects the check to turn each of them down before any
# proof is asked for: a lease handed in twice, one taken apart, one made by hand. The same program
# without the misuse is accepted. (That the prover turns down a lease which is let go is shown by a
# must-fail edit of the crate walkthrough.)
set -euo pipefail
top=$(cd "$(dirname "$0")/.." && pwd)
work=$(mktemp -d)
trap 'rm -rf "$work"' EXIT

# A repository of the libraries alone, without their edits and tests, and one program.
mkdir -p "$work/crates/misuse/src"
for crate in refusal job discipline queues run; do
    mkdir -p "$work/crates/$crate"
    for part in src specs proofs; do
        [ ! -d "$top/crates/$crate/$part" ] || cp -r "$top/crates/$crate/$part" "$work/crates/$crate/$part"
    done
    rm -rf "$work/crates/$crate/src/tests.rt"
    sed -i '/^#\[cfg(test)\]$/d; /^mod tests;$/d' "$work/crates/$crate/src/lib.rt"
done
{
    grep -E '^(refusal|job|discipline|queues|run):' "$top/crates.txt"
    echo 'misuse: refusal job discipline queues run'
} >"$work/crates.txt"

# check BODY: the answer of the check to a program in which `after_take` has that body.
check() {
    cat >"$work/crates/misuse/src/main.rt" <<RATTLE
#![tactic(auto)]

use queues::Fcfs;
use run::lease::Lease;
use run::run::Run;

fn hand_in(run: &mut Run<Fcfs>, lease: Lease) -> Option<Lease> {
    match run.done(lease) {
        Ok(()) => None,
        Err((_, lease)) => Some(lease),
    }
}

fn after_take(run: &mut Run<Fcfs>, lease: Lease) -> Option<Lease> {
    $1
}

fn main() {}
RATTLE
    (cd "$work/crates/misuse" && rt check) >"$work/log" 2>&1
}

# accepted LABEL BODY
accepted() {
    if check "$2"; then
        echo "lease: $1: accepted"
    else
        echo "lease: $1: refused, and should not be"
        tail -n 40 "$work/log"
        exit 1
    fi
}

# refused LABEL ERROR BODY
refused() {
    if check "$3"; then
        echo "lease: $1: accepted, and should not be"
        exit 1
    elif grep -qF "$2" "$work/log"; then
        echo "lease: $1: refused, $2"
    else
        echo "lease: $1: refused, but not with $2"
        tail -n 40 "$work/log"
        exit 1
    fi
}

accepted 'handed in once' 'hand_in(run, lease)'
refused 'handed in twice' 'error[borrow-e0382]' 'let _first = hand_in(run, lease); hand_in(run, lease)'
refused 'taken apart' 'error[private-field]' 'let Lease { mark: _, tick: _, job: _ } = lease; None'
refused 'made by hand' 'error[private-field]' 'match hand_in(run, lease) { Some(lease) => Some(lease), None => hand_in(run, Lease { mark: 1, tick: 0, job: 0 }) }'
