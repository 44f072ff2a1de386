#!/bin/sh
# Lists the places where the sources may use an older form than the language has, by the point that docs/DESIGN-PASS.md has for each.
# Run it at the top of the repository. A line that it lists is to be read; docs/DESIGN-PASS.md says what became of each.
set -u
src() { find crates -path '*/src/*' -name '*.rt' | grep -v '/out/' | LC_ALL=C sort; }
look() { src | xargs grep -nHE "$1" | grep -vE ':[0-9]+: *//'; }

echo '# 1 enums of the repository'
look '^ *(pub(\([a-z]+\))? )?enum '
echo '# 1 kinds by number'
look '\bkind (==|!=) [0-9]|match ([a-z]+\.)?kind \{|\bkind: [1-9]' | grep -vE 'requires|ensures'
echo '# 1 flags, and numbers that stand for a choice'
look '\b(nulls|root|size|used|held|mark) (==|>|<=) [01]\b|fn [a-z_]+\(number: u64\)|-> .*\(u64, (u64|bool)\)' | grep -vE 'requires|ensures'
echo '# 1 errors handed on by hand'
look '^ *(Err\([a-z_]+\) =>|if let Err\(|if let Some\(record\))|Err\(_\) =>'
echo '# 2 functions of one name in several places'
src | xargs grep -noHE '^ *(pub(\([a-z]+\))? )?fn [a-z_0-9]+' | sed -E 's/^([^:]+):[0-9]+: *(pub(\([a-z]+\))? )?fn /\1 /' |
    awk '{ n[$2] = n[$2] " " $1; c[$2]++ } END { for (k in c) if (c[k] > 1) print k ":" n[k] }' | LC_ALL=C sort
echo '# 2 functions and impls named by a type, a width or a size'
look 'fn [a-z_]*(_[iu](8|16|32|64)|_(four|eight|one|two))\b|impl [A-Z][A-Za-z]* for [iu](8|16|32|64) |fn (has_values|leads_on|is_[a-z]+_width|number_(from|above)|total_[a-z]+|part_at|bytes_at)\b'
echo '# 2 records of zeros written out'
look '^ *kind: 0,$'
echo '# 3 loops over an index'
look '\bfor [a-z_]+ in [^ ]*\.\.|\bfor [a-z_]+ in \([^ ]*\.\.|\bwhile '
echo '# 3 counters beside a loop'
look 'let mut (at|line|number|next|i|j|k|n|total|used|left|end)\b.* = '
echo '# 4 impls written by hand'
look '^impl.*\b(Display|From<.*|TryFrom<.*|FromStr|Error|PartialEq|Eq|Ord|Clone|Copy|Default)\b.* for '
echo '# 4 functions that compare, convert or name by hand'
look 'fn (same_record|same_value|text|form_text|name|numbers|fields|record|number|input|show_fault|show_record)\('
echo '# 5 facts that three or more functions ask'
src | xargs grep -hoE 'requires [a-z_]* ?\{ .* \}' | sed -E 's/requires [a-z_]* ?//' | LC_ALL=C sort | uniq -c | awk '$1 >= 3' | LC_ALL=C sort
echo '# 5 functions with five parameters or more'
src | xargs awk 'FNR == 1 { depth = 0 } /^ *(pub(\([a-z]+\))? )?(extern "C" )?fn [a-z_0-9]+/ && !depth { text = ""; depth = 1; at = FILENAME ":" FNR }
    depth { text = text $0; if ($0 ~ /\)( ->|$| \{)/) { h = text; sub(/\) *(->.*)?(\{.*)?$/, "", h); n = gsub(/[a-z_]+: |&mut self|&self|\(self/, "&", h); if (n >= 5) { sub(/^ */, "", text); print at ": " substr(text, 1, 60) } depth = 0 } }'
echo '# 6 buffers with a length beside, arrays side by side, searches by hand'
look 'let mut [a-z]+ = \[|keys: Vec<|valid: Vec<|entries: Vec<|chosen: |low < high|fn run_(of|at)\('
echo '# 7 switches'
look 'match \(?([a-z]+\.)*(width|kind|hash)\b|match Kind::|if r\.width == '
