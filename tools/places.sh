#!/usr/bin/env bash
# Counts, point by point, the lines of src/ (and of the proofs) at which docs/DESIGN-PASS.md looked for older forms.
cd "$(dirname "$0")/.." || exit 1
lines() { grep -rnE "$1" crates/*/src; }
echo "1 enums of our own: $(lines '^\s*(pub(\([a-z]+\))? )?enum ' | wc -l)"
echo "1 flags: $(lines '\b\w+: bool\b|let mut \w+ = (true|false)' | grep -vc 'const ')"
echo "1 options and results taken apart: $(lines '(Some|Ok)\(\w*\) => (Ok|Some)\(|None => (Err|Ok|None)|Err\(\w+\) => (Answer::|\w+,$|Err|[0-9])|Some\(\w+\) => \w+,|if !self\.keyed' | wc -l)"
echo "2 shapes of two functions or more: $(python3 tools/twins.py | tail -1)"
echo "3 loops over a range, or by a test: $(lines '\bfor \w+ in [^{]*\.\.|\bwhile |\bloop \{' | wc -l)"
echo "3 counts by hand: $(lines '\b(\w|\.)+ (\+|-)= (1|8);' | wc -l)"
echo "3 loops that return or write as a method of std does: $(grep -rn -A3 -E 'for .* in ' crates/*/src | grep -cE 'return |= (\*|C::)')"
echo "4 ranges tested by hand: $(lines '(<|>|<=|>=) (b?.[0-9a-zA-Z]+.?|[0-9]+) (\|\||&&) \w+ (<|>|<=|>=)' | wc -l)"
echo "4 comparisons and conversions by hand: $(lines '\bfn (same|is_done|of|copy|exchange|clear|lower|negative|appended)\b' | wc -l)"
clauses() { grep -rhoE '^\s*(requires|ensures)( [a-z_]+)? \{.*' crates/*/src | sed -E 's/^ *//' | sort | uniq -c; }
echo "5 clauses that stand three times or more: $(clauses | awk '$1>=3' | wc -l), in all $(clauses | awk '$1>=3{s+=$1}END{print s}')"
echo "6 buffers with a length or an index beside: $(lines '^\s*(pub(\([a-z]+\))? )?\w+: (&(mut )?)?\[\w+; \w+\]|next: usize|let mut next' | wc -l)"
echo "7 functions as values: $(lines '\bfn\(|\bdyn |Box<|impl Fn|\bFn(Mut|Once)?\(' | wc -l)"
answers=$(find crates/*/proofs -name Answers.antt)
echo "8 lines of proofs: $(find crates/*/proofs -name '*.antt' -print0 | xargs -0 cat | wc -l), answers: $(grep -hcE '^pub .* : ?(goal|$)' $answers | awk '{s+=$1}END{print s}') in $(echo "$answers" | wc -l) files"
