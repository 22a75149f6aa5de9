#!/usr/bin/env bash
# The places that docs/DESIGN-PASS.md counts, of the tree in the folder given (default: this one), a line for each count: where an older form stands in crates/*/src.
set -u
cd "${1:-$(dirname "$0")/..}" || exit 2

# NAME PATTERN: lines of source that match, comments left out
count() { printf '%-62s %4d\n' "$1" "$(find crates -path '*/src/*' -name '*.rt' -not -path '*/out/*' -print0 | xargs -0 grep -hE -- "$2" | grep -cvE '^ *//')"; }

echo '1. own Option and Result, a flag beside a value, numbers for kinds'
count '   variants that refuse or lack a value' '^    (Refused|Refuse|Bad|Negative|Nothing|Elsewhere|Free)(\(|,)'
count '   fields that say whether another counts' '^    (pub )?(refusal|stop|kind|good|none|yes|has|has_high|end|whole): '
count '   constants for refusals and modes' '^pub const [A-Z_]+: u64 = [0-9]+;'
count '   a number that is tested for none or for a kind' '(refusal|kind|n|k|v) (==|!=) 0 \{|match v \{|a\.kind =='
echo '2. twins'
count '   functions that are named for a width' 'fn \w+(32|64)\('
echo '3. loops'
count '   while' '^ *while '
count '   a counter that goes up or down by one' '^ *[a-z_.]+ [+-]= 1;'
count '   for' '^ *for '
count '   iterator chains and library loops' '\.(iter|iter_mut|fold|sum|map|any|all|position|filter|zip|enumerate|take|copied|count)\(|\.(fill|copy_from_slice|copy_within)\('
echo '4. equality, order, conversion, printing by hand'
count '   calls of own minimum, maximum, difference, widening' 'order::(minus|least_of|greatest_of|wide|narrow)\(|(shorter|shortest|magnitude)\('
count '   conversions of answers by own functions' '(answer|cut|told|number)::(of_)?(outcome|truth|amount|perhaps|planning|spanned|ranks|done|number|optional)\('
count '   From, TryFrom, Display' '^impl.* (From<|TryFrom<|fmt::Display)'
echo '5. facts and parameters that travel together'
count '   InRange in a clause' 'InRange h'
count '   functions that take a table beside its pools' '^ *table: &|table: &(mut )?\[u64\]'
echo '6. a length beside a buffer, a search by hand'
count '   a slice with its length or place' '(row|words|text|out): &(mut )?\[[^]]*\], (len|n|at): usize'
echo '7. switches'
count '   a number or a flag that picks a step' 'match v \{|both: bool|match kind \{'
echo '8. proofs'
printf '%-62s %4d\n' '   files of answers' "$(find crates -path '*/proofs/*' -name Answers.antt -not -path '*/out/*' | wc -l)"
printf '%-62s %4d\n' '   lines of proofs' "$(find crates -path '*/proofs/*' -name '*.antt' -not -path '*/out/*' -print0 | xargs -0 cat | wc -l)"
printf '%-62s %4d\n' '   facts written out in an answer, (let known : ..' "$(find crates -path '*/proofs/*' -name Answers.antt -not -path '*/out/*' -print0 | xargs -0 grep -ho '(let known' | wc -l)"
