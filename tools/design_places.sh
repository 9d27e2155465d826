#!/usr/bin/env bash
# The places that the design pass looks at, by text: run at the top of the repository, `tools/design_places.sh [POINT]`. Each line is a
# candidate, which somebody has to read; docs/DESIGN-PASS.md says what became of each.
set -uo pipefail
src() { git ls-files -- 'crates/*/src/*.rt' | sort; }
point() { [ $# -eq 0 ] || echo; echo "== $1"; }
one() {
    point "1. enums, and numbers for kinds"
    src | xargs grep -nE '^ *(pub(\(crate\))? )?enum |-> u8$|-> \(u8|: \(u8|\bis_[a-z]+: bool'
}
two() {
    point "2. names of types and functions that stand more than once, with how often"
    src | xargs grep -hoE '\b(fn|struct|enum) [A-Za-z_0-9]+' | sort | uniq -c | awk '$1 > 1 { print $3, $2, $1 }' | sort
}
three() {
    point "3. loops"
    src | xargs grep -nE '^ *(for|while|loop)\b'
}
four() {
    point "4. comparison, conversion and printing by hand"
    src | xargs grep -nE '\bas (u8|u16|u32|u64|usize)\b|^ *impl.* (Display|PartialEq|Eq|PartialOrd|Ord|Clone|Copy|From|TryFrom)\b|fn (fmt|cmp|eq|number|text|whose|value|comes_before|name_before)\b'
}
five() {
    point "5. words of clauses that three functions or more of one crate ask or promise, with how often"
    for crate in crates/*/; do
        git ls-files -- "$crate"'src/*.rt' | xargs grep -hoE '^ *(requires|ensures)[^{]*\{ .*' | grep -oE '\b[A-Z][A-Za-z]+\b' |
            grep -vE '^(D|K|Discipline|Some|None|Ok|Err|IfOk|IfErr|IfSome|OnOk|MatchResult|MatchOption|Self|Call|Refusal|List|HandIn|Quantum|Held)$' |
            sort | uniq -c | awk -v c="$crate" '$1 > 2 { print c, $2, $1 }'
    done
    echo "-- parameters that stand together three times or more"
    src | xargs grep -hoE 'fn [a-z_]+(<[^(]*>)?\([^)]*\)' | grep -oE '\([^)]*\)' | grep -oE '[a-z_]+: [^,)]+(, [a-z_]+: [^,)]+)+' |
        sort | uniq -c | awk '$1 > 2'
}
six() {
    point "6. arrays, lent buffers and lengths in fields"
    src | xargs grep -nE '^ +(pub(\(crate\))? )?[a-z_]+: (\[|&.*\[|usize|u8\b|u16\b)'
}
seven() {
    point "7. switches on a step, function pointers and closures"
    src | xargs grep -nE 'match \(?(self, )?(call|end|hand|kind|op)\b|\bdyn\b|fn\(|impl Fn|: Fn'
}
eight() {
    point "8. answers and lines of proofs, by crate"
    for crate in crates/*/; do
        answers=$(git ls-files -- "$crate"'proofs/*Answers.antt' | xargs -r grep -hE '^pub [^ ]+ : goal\.' | wc -l)
        lines=$(git ls-files -- "$crate"'proofs/*.antt' | xargs -r cat | wc -l)
        echo "$crate answers $answers lines $lines"
    done
}
case "${1:-all}" in
    1) one ;; 2) two ;; 3) three ;; 4) four ;; 5) five ;; 6) six ;; 7) seven ;; 8) eight ;;
    *) one; two; three; four; five; six; seven; eight ;;
esac
