#!/usr/bin/env bash
# Lists, in src/, the places where an older form may stand: by point, one line a place. docs/DESIGN-PASS.md has
# the counts of the commit before. Run at the top of the repository; `-c` prints the counts alone.
set -u
src=$(ls crates/*/src/*.rt)
say() { # NAME: the lines on standard input
  if [ "${counts:-}" = 1 ]; then printf '%s %s\n' "$1" "$(grep -c .)"; else echo "== $1"; cat; fi
}
[ "${1:-}" = -c ] && counts=1
# 1: a variant that stands for "none of these"; a flag as a field of a struct; a number or a character as a code
grep -nE '^ +(Other|None|Nothing|Invalid|Failed),' $src | say 1-catch-all
grep -nE '^ +(pub(\(crate\))? )?[a-z_]+: bool,$' $src | grep -v '^crates/[a-z]*/src/[a-z]*.rt:[0-9]*:        ' | say 1-flag
grep -nE "number: u8|-> u8$|'.0'|-> char$" $src | say 1-code
grep -nE -A3 '^ *(pub(\(crate\))? )?fn (find_|try_|check_)[a-z_]*\(.*-> bool' $src | grep 'fn ' | say 1-bool-answer
grep -nE '(None|Err\([a-z_]+\)) => (return )?(Err\(|None)|=> return (None|Err)|is_err\(\)' $src | say 1-match-for-question-mark
# 2: names that differ in a number or a type; a constant that is written twice
grep -nE 'fn [a-z_]*(_three|_five|_bits|_threes|_zeros|three_|bit_)[a-z_]*[(<]' $src | say 2-names
grep -nE '^(pub )?const ' $src | sed -E 's/.*const ([A-Z_]+):.*/\1/' | sort | uniq -d | say 2-constants
# 3: every loop
grep -nE '^ *(for|while|loop)\b' $src | say 3-loops
# 4: conversions by `as`; a match that answers true or false; a type without derived equality; functions that convert
grep -nE ' as (u8|u16|u32|u64|usize|char)\b' $src | say 4-as
grep -nE '=> true,|=> false,' $src | say 4-match-to-bool
grep -nE -B2 '^(pub(\(crate\))? )?(struct|enum) ' $src | grep -E 'derive' | grep -v PartialEq | say 4-no-derived-equality
grep -nE 'fn ([a-z_]+_of|of|same|at_most|[a-z_]*_answer|answer_word|sentence|letter|lift)[(<]' $src | say 4-by-hand
# 5: a fact that stands in three contracts or more
grep -hE '^ +(requires|ensures)' $src | sed -E 's/^ +(requires|ensures) [a-z_]* ?\{ //; s/ \}$//; s/\b([a-z]+)\.(old|new|now|entry)\b/\1/g' | sort | uniq -c | sort -rn | awk '$1>=3' | say 5-facts
grep -nE '^ +(requires|ensures|ghost).*vec_capacity' $src | say 5-capacity
# 6: vectors, buffers and places
grep -nE ': (&mut )?Vec<|\[u8; [0-9]' $src | say 6-vectors
grep -nE '^ +(pub(\(crate\))? )?(place|len|end|index|next): (usize|u32),' $src | say 6-places
# 7: functions as values
grep -nE 'dyn |impl Fn|: fn\(|\[fn\(' $src | say 7-functions
# 8: proof text
cat $(find crates -name '*.antt' -path '*/proofs/*' -not -path '*/out/*') | grep -c . | sed 's/^/lines of proofs: /' | say 8-lines
cat $(find crates -name Answers.antt -path '*/proofs/*' -not -path '*/out/*') | grep -cE '^pub [a-z]' | sed 's/^/answers: /' | say 8-answers
