#!/bin/sh
# A lint: it only reads the text of the crates, and proves and runs nothing. The probe lists are used by their promise
# alone: no crate but probes_spec, probes, cases and cases_worked unfolds a definition of probes_spec, and none of its
# definitions is an `abbrev`, which would unfold everywhere without a line that shows it. Statements in words are
# excepted; they are named here. It reads the files of specs/ and of proofs/, and the code, where an attribute may name
# what is unfolded.
set -eu
cd "$(dirname "$0")/.."
statements='Hits Narrow NoneMissed Alone Before Named SomeRefuses NoneNamed Foreign'
files=$(find crates/probes_spec/specs crates/probes_spec/proofs -name '*.antt')

abbreviated=$(cat $files | sed -n 's/^ *abbrev pub \([^ ]*\) :.*/\1/p')
for name in $abbreviated; do
    case " $statements " in
        *" $name "*) ;;
        *)
            echo "lint_probes: $name is an abbrev"
            exit 1
            ;;
    esac
done

names=$(cat $files | sed -n 's/^ *unfoldable pub \([^ ]*\) :.*/\1/p')
[ -n "$names" ] || {
    echo "lint_probes: no definition found in probes_spec"
    exit 1
}
for crate in crates/*/; do
    case "$crate" in crates/probes_spec/ | crates/probes/ | crates/cases/ | crates/cases_worked/) continue ;; esac
    # an attribute of the code names a definition by its path
    for file in $(find "$crate/src" -name '*.rt'); do
        if tr '\n' ' ' < "$file" | grep -qE 'unfolding\([^()]*probes_spec::'; then
            echo "lint_probes: $file unfolds a definition of probes_spec"
            exit 1
        fi
    done
    # a definition of another crate may have the same name; only what is brought in from probes_spec counts
    for file in $(find "$crate" -name out -prune -o -name '*.antt' -exec grep -l 'use Rattle\.probes_spec\.' {} +); do
        brought=$(sed -n 's/^use Rattle\.probes_spec\.[^{]*{\(.*\)}$/\1/p' "$file" | tr ',' '\n' | tr -d ' ')
        for name in $names; do
            echo "$brought" | grep -qx "$name" || continue
            if grep -nE "unfold(ing)?( [^ ]+)* $name( |\$)" "$file" | grep -v ':[[:space:]]*--'; then
                echo "lint_probes: $file unfolds $name"
                exit 1
            fi
        done
    done
done
echo "lint_probes: ok"
