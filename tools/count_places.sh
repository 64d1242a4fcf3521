#!/usr/bin/env bash
# Lists the places in crates/*/src that docs/DESIGN-PASS.md counts, point by point, and how many lines each list has.
# The lists are to be read by a person: a line here is a place to look at, not yet one to change.
set -u
cd "$(dirname "$0")/.." || exit 1
src=(crates/*/src/*.rt)

list() { # list TITLE: prints the lines on standard input under the title, with their count
  local lines; lines=$(cat)
  echo "## $1: $(printf '%s' "$lines" | grep -c '')"
  [ -z "$lines" ] || printf '%s\n' "$lines"
}

grep -nE '^(pub(\(crate\))? )?enum ' "${src[@]}" | list "1 own enums"
grep -nE '(number|layer): u8,|fn (number|layer)\(.*u8|as u8$' "${src[@]}" | list "1 numbers for kinds and refusals"
grep -nE '^ +(pub(\(crate\))? )?[a-z_]+: bool,' "${src[@]}" | list "1 flags beside values"
grep -nE 'where there is none\.$|-> bool$' "${src[@]}" | grep -E '0 where|fn gather' | list "1 an answer that is 0 or no where there is none"
grep -oE '^ *(pub(\(crate\))? )?(const )?fn [a-z_]+' "${src[@]}" | sed -E 's/^crates\/([a-z_]+)\/src\/([a-z_]+)\.rt:.*fn /\1 \2 /' \
  | awk '{ n[$3]++; at[$3] = at[$3] " " $1 "/" $2 } END { for (f in n) if (n[f] > 1) print f ":" at[f] }' | sort | list "2 functions of one name"
grep -oE '^ *(pub(\(crate\))? )?(struct|enum) [A-Za-z]+' "${src[@]}" | sed -E 's/^crates\/([a-z_]+)\/.*(struct|enum) /\1 /' \
  | awk '{ n[$2]++; at[$2] = at[$2] " " $1 } END { for (t in n) if (n[t] > 1) print t ":" at[t] }' | sort | list "2 types of one name"
grep -nE '^ *(while |loop )|for \(?[a-z_]+(, [a-z_]+)?\)? in \(?[a-z_.0-9()]+\.\.' "${src[@]}" | list "3 loops over an index, and while loops"
grep -nE '^ +[a-z]+ \+= (1|[a-z]+);' "${src[@]}" | list "3 counters"
grep -nE 'fn (number|layer|numbers|quad|crossing|with_sign|counted|sighted|written|found|hexadecimal|refuse|named|filler|copy)\(' "${src[@]}" \
  | list "4 conversions and printing by hand"
grep -nE '\.x == .*\.x|\.y == .*\.y' "${src[@]}" | list "4 equality by hand"
for clause in 'world (M.Map.rooms' 'AllByRecursion Crosses' 'Linked ' 'length edges.now ≤ 4096' 'text_of lexer.new ≡ text_of lexer.old' 'Roomy size' \
  'length (M.Map.doorways map.now) ≤ length shut.now'; do
  grep -nF -- "$clause" "${src[@]}" | grep -v 'ghost use' | cut -d: -f1,2 | list "5 clauses with '$clause'"
done
awk 'FNR == 1 { f = 0 } /fn [a-z_]+.*\($/ { f = 1; n = 0; head = FILENAME ":" FNR; next } f && /^ *\)/ { if (n > 3) print head ": " n " parameters"; f = 0 } f { n++ }' "${src[@]}" \
  | list "5 functions of more than three parameters"
grep -nE '\[[A-Za-z]+; ?[A-Z0-9_]+\]' "${src[@]}" | grep -vE 'crates/(readings|worked|cases)/' | list "6 arrays"
grep -nE 'match self \{|match \(?name|dyn |: fn\(' "${src[@]}" | list "7 switches"
for c in crates/*/; do
  n=$(basename "$c")
  [ -d "$c/proofs" ] || continue
  echo "8 $n: $(find "$c/proofs" -name Answers.antt | xargs cat 2>/dev/null | grep -cE '^pub ') answers, $(find "$c/proofs" "$c/specs" -maxdepth 1 -name '*.antt' | xargs cat 2>/dev/null | wc -l) lines of definitions and lemmas, $(find "$c/proofs" -mindepth 2 -name '*.antt' | xargs cat 2>/dev/null | wc -l) lines of answers and invariants"
done | list "8 proofs"
