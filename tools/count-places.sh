#!/usr/bin/env bash
# Lists, by point, the lines of src/ in which the old forms stand that docs/DESIGN-PASS.md counts.
# A line that is listed is a candidate: the page says which of them are places.
set -euo pipefail
cd "$(dirname "$0")/.."
code() { grep -rnE "$1" crates/*/src --include=*.rt | grep -v '^crates/tests/' || true; }
part() { echo "== $1"; }

part "1 enums"
code '^ *(pub(\([a-z]+\))? )?enum '
part "1 results and options taken apart arm by arm"
code '(Ok|Some|Err|None)(\([a-z_]*\))? => '
code 'let (Ok|Some)\(.*else \{$'
part "1 numbers for kinds, values beside a flag"
code '0 where|column: 0|-> u8'
part "2 functions, by their names and parameters"
code '^ *(pub(\([a-z]+\))? )?(final )?fn '
part "3 loops"
code '^ *(for|while|loop)\b'
code '(\+|-)= 1;|\.enumerate\(\)'
part "4 equality, tests of a variant, conversions, printing"
code 'fn (is_same|same_[a-z]*|eq|is_missing|halts|narrow[a-z_]*|from_token|letter|number|is_space|is_letter|push_[a-z]*|spelling|put_[a-z]*|stops_early|beyond)\b'
part "5 clauses, how often each stands"
grep -rhE '^ *(requires|ensures)' crates/*/src --include=*.rt \
    | sed -E 's/^ *(requires|ensures) [a-z_]* ?\{ ?//; s/ ?\}.*$//; s/\b[a-z]+\.(old|new|now)\b/X/g' \
    | sort | uniq -c | sort -rn | awk '$1 > 1'
part "5 words that a clause puts round one value"
grep -rohE '\b(lines_of|items_of|room_of|waiting|ink_of|ahead|end_of|shape_in|row) [a-z]+' crates/*/src --include=*.rt | awk '{print $1}' | sort | uniq -c
part "6 arrays and lengths"
code '\[[A-Za-z0-9_:&]+; ?[A-Za-z0-9_ +]+\]' | grep -v '/class.rt'
code '(len|size): (usize|0)'
part "7 function pointers, dyn, bounds on closures"
code 'fn\([a-z&A-Z0-9_, ]*\) *->|dyn |Fn(Mut|Once)?\('
part "8 files and lines in proofs/, and lemmas below them"
find crates/*/proofs -name '*.antt' | wc -l
find crates/*/proofs -name '*.antt' -exec cat {} + | wc -l
