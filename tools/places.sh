#!/bin/sh
# Counts, in crates/*/src, the lines that may be places of each point of docs/DESIGN-PASS.md; with -l it lists them.
# Which of them are places, and what became of each, that page says.
cd "$(dirname "$0")/.." || exit 1
list=$1

lines() {
    grep -rnE --include='*.rt' "$2" crates/*/src > /tmp/places.$$
    echo "$1: $(wc -l < /tmp/places.$$)"
    [ "$list" = -l ] && sed 's/^/    /' /tmp/places.$$
    rm -f /tmp/places.$$
}

lines '1 enums' '^(pub(\(crate\))? )?enum '
lines '1 numbers and values that stand for none' 'const NONE|[!=]= (NONE|\[NONE)|kind: u8|number: u8|^ *[0-9]+( \| [0-9]+)* => |=> [0-9]+,'
lines '1 flags with a value beside' 'fn put\(.*-> bool'
printf '2 names of functions given more than once: '
grep -rhoE --include='*.rt' '\bfn [a-z_]+' crates/*/src | sort | uniq -d | wc -l
[ "$list" = -l ] && grep -rhoE --include='*.rt' '\bfn [a-z_]+' crates/*/src | sort | uniq -c | awk '$1 > 1 { print "    " $0 }'
lines '3 loops over numbers, and by hand' '^ *for .* in .*\.\.|\bwhile\b|\bloop \{|saturating_add|[+]= 1;'
lines '3 loops that search, collect or count' '^ *for [^.]*$'
lines '3 reads by an index that is tested by hand' 'if [a-z_]+ <=? ?[a-z_.]*(len\(\)|32)|if [a-z_]+ < [a-z_.]+\.len\(\)'
lines '4 impls of comparisons and conversions' 'impl.*\b(PartialEq|Eq|PartialOrd|Ord|Clone|Default|Same|From|TryFrom|Display)\b.* for '
lines '4 by hand' 'fn (same_as|entries_same|entry_or|given|digit|went|stop_line|model_line|item_at|is_dead|number)\b'
lines '4 conversions by as' ' as (u8|u16|u32|u64|usize)\b'
lines '4 fillers written out' '(variable: 0|first: None),'
lines '5 facts of structs' 'ghost [a-z]+: \{ '
lines '5 facts asked of callers' 'requires (\{|[a-z_]+ \{)'
lines '5 a list with its marks' 'marks: &(mut )?\[bool\]'
lines '5 a variable with a value' 'variable: (usize|u8), value: u8'
lines '5 three operands' '(first|second|third): (u8|usize|Option<u(8|size)>)'
lines '6 arrays, lengths beside buffers, indices' '; (N|[0-9_]+)\]|len: usize|from: usize'
lines '7 switches and functions as values' 'match (part|end|kind|command|self)\b|\bdyn |\bfn\(|impl Fn|Box<'
count() { find crates/*/"$1" -name "$2" -exec cat {} + | grep -c "$3"; }
echo "8 answers: $(count proofs Answers.antt '^pub ') in $(find crates/*/proofs -name Answers.antt | wc -l) files"
echo "8 invariants: $(find crates/*/proofs -name Invariants.antt | wc -l) files"
echo "8 lines that are not blank: src $(count src '*.rt' .), specs $(count specs '*.antt' .), proofs $(count proofs '*.antt' .)"
