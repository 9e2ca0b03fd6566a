#!/bin/sh
# Counts the places that docs/DESIGN-PASS.md speaks of, in the crates of this checkout or of the folder that is named.
# One line a kind: the point, the count, what is counted. With -l it lists the places of each.
set -eu
list=false
[ "${1:-}" = -l ] && { list=true; shift; }
cd "${1:-$(dirname "$0")/..}"

# Lines of src/ that are no comments and match.
count() {
    point=$1 pattern=$2 what=$3
    found=$(grep -nE -- "$pattern" crates/*/src/*.rt | grep -vE '^[^:]*:[0-9]+: *//' || true)
    printf '%s\t%s\t%s\n' "$point" "$(printf '%s' "$found" | grep -c . || true)" "$what"
    if $list; then printf '%s\n' "$found" | sed 's/^/    /'; fi
}

count 1 '^(pub )?enum ' 'own enums'
count 1 'pub answer: Verdict' 'structs of an answer with values beside it'
count 1 'let Verdict::Accepted = ' 'answers taken apart by hand'
count 1 'so_far: Verdict|also\(' 'answers handed on by hand'
count 1 '^ +return (e|tau);|^ +(e|rho)$' 'indices with their count for none'
count 1 'polar: bool' 'flags beside a value'
count 1 'degree: (usize|u32)' 'degrees as numbers'
count 1 'Reason::[A-Za-z]+ => [0-9]+|number\(reason\)' 'numbers of refusals by hand'
count 2 'fn (double|multiply|mask_element|degree|size|modulus|accumulate_[a-z]+|dot_[a-z]+|round|add_sixteen|add_held|add_lanes|add_at|add_ten|add_two|add_words|look_up|look_up_two|put_sixteen|copy_chunk|copy_into|fill|four_at|two_at|fill_sums|(commit|hash|batch|proof)_bytes)[(<]' 'functions that differ in a type, a size or a constant, and what stands for them'
count 2 'if in_range\(s\) \{' 'size functions of one body'
count 2 'pub struct (Dimensions|Forms|Block|Batch) ' 'structs that differ in a field or two'
count 3 '^ *while ' 'loops by while'
count 4 '(strings::)?\b(copy_into|clear|least|wide|word|number2|number4|put_count|word_at|put_word|put_decimal|put_number|write_hex)\(' 'conversions, copies, printing by functions of our own'
count 4 '<< *[0-9a-z]+\) *\| *\([a-z0-9]+ *>> ' 'rotations by shifts'
count 4 '\bas (u8|u16|u32|u64|usize)\b' 'casts'
count 5 'limits \(shape_for' 'clauses that sizes are in range'
count 5 'PlacesIn|PlacesOf' 'clauses on the places of a proof'
count 5 'length [a-z_]+\.(old|now|new) ≡ (lanes|chunk|16|128|144|pair|planes|8|8 \* chunk|planes \* lanes|16 \* lanes|lane_count|two_sixteens|picks_bytes|fives|eight_rows|4|6)\b' 'lines with the constant length of a slice'
count 5 '^ +let [a-z]+ = [a-z]+\.[a-z_]+;$' 'fields copied to locals'
count 6 'let mut [a-z_0-9]+ = \[0u?[0-9a-z]*; [A-Z_* ]*(MOST|ROOM|CELLS|LANES|VECTORS|SPACE|WORDS|LINES|SUMS)' 'buffers of the largest size'
count 7 'if (polar|degree ==|p == 0|from == 0|from != 0|w < SIXTEEN)' 'switches on which step to run'
printf '8\t%s\t%s\n' "$(cat crates/*/proofs/*/Answers.antt crates/*/proofs/*/*/Answers.antt crates/*/proofs/*/*/*/Answers.antt 2>/dev/null | grep -cE '^pub ' || true)" 'answers'
printf '8\t%s\t%s\n' "$(cat crates/*/proofs/*/Invariants.antt crates/*/proofs/*/*/Invariants.antt crates/*/proofs/*/*/*/Invariants.antt 2>/dev/null | grep -cE '^abbrev pub (invariant|decreases)' || true)" 'invariants and measures'
