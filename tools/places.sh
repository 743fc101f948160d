#!/bin/bash
# Counts, in src/ of every crate at a commit (or in the working tree, without one), the places that docs/DESIGN-PASS.md speaks of.
# Each line: the point, what is looked for, how many lines have it. With -l as the first word the lines are listed.
list=no
if [ "$1" = "-l" ]; then list=yes; shift; fi
cd "$(dirname "$0")/.." || exit 2
count() {
    found=$(git grep -nE -e "$3" $commit -- ':(glob)crates/*/src/**' | grep -vE "${4:-^$}")
    echo "$1; $2: $(printf '%s' "$found" | grep -c '')"
    if [ "$list" = yes ] && [ -n "$found" ]; then printf '%s\n' "$found" | sed 's/^/    /' | cut -c1-170; fi
}
commit=$1
count 1 'a flag in a struct or as a parameter' '[a-z_]+: bool\b'
count 1 'a refusal or an error passed on by a match' 'Err\((why|e)\) => (return )?(Err\(|\(service, Err)|return Err\(fmt::Error\)' 'state: self'
count 1 'a refusal handed on with the state, which a ? would let go' 'Err\(why\) => Err\(Refused'
count 1 'a refusal of one kind turned into another by a match' 'Err\(Unplaced::'
count 1 'a zone or a side as a number or a text' '(zone: u(8|32)|side: &str)'
count 2 'functions of one shape, by the names of the pairs' 'fn (raised|lowered|highest_price|lowest_price|still_idle|still_open|opened|cleared|settled|annul|admit|enter|withdraw|open|close|space|seat_of|rank_of|rising|neighbours_differ|codes_climb|counted|first_entries|blank[a-z_]*|show|show_bid|show_block)\b' ': *(pub )?fn (enter|withdraw|admit)<|Place'
count 2 'traits and impls for a row of blocks' '(trait|impl) (BlockRow|Traded|Record)'
count 3 'loops over a range or by a condition' '^ +(for [a-z_]+ in [0-9a-z_]+\.\.|while |for _ in)' 'tests.rt'
count 3 'a place counted by hand' '\b(i|j|k|next|place|count|len) [+-]= 1;|^ +(i|j|next) = |let mut (i|j|next|count) ' 'tests.rt'
count 4 'equality, order, conversion and printing by hand' 'fn (same|same_key|code|number|of|row|is_in|compared|place_of|least|wins_tie|before|with_totals|blank[a-z_]*|no_offer|show_bid|show_block|answer|zone_of)\b'
count 4 'a value copied field by field' '^ +(capacities|last_session|accounts|income|residue|sales|purchases|one|two|engine|ledger|session): (self\.|admitted)|let (income|residue|number|matched|name) = self\.'
count 5 'four or six slices side by side' '^ +sales_one: &'
count 5 'capacities as two numbers' 'forward: u32'
count 5 'what the line brings and takes as two numbers' 'brought: u32'
count 5 'income and residue as two numbers' 'income: i64'
count 5 'rows and their count side by side' '(count|owners): usize' 'pub count'
count 5 'the clause of the capacities or of carried tenths' '≤ 30000000' 'ghost use'
count 5 'the clause that a table looked at stays as it was' 'new ≡ [a-z_]+\.old \}'
count 6 'a buffer with its length, or an array of a fixed size' 'len: usize|\[[a-z_0-9A-Z:]+(\(\))?; [A-Z0-9_]+\]' 'static|const'
count 6 'parallel arrays' 'fn lots_of'
count 7 'a step chosen by a chain of comparisons or by a kind of rule' 'if (same\(name|is\(b)|^ +Rules::[A-Za-z]+ =>'
echo "8; lines of proofs: $(git grep -c '' $commit -- ':(glob)crates/*/proofs/**' | awk -F: '{s+=$NF} END {print s}')"
