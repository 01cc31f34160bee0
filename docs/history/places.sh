#!/bin/bash
# Counts the places in src/ that older forms of the language leave: docs/DESIGN-PASS.md says what each count is for.
# With a word, such as `flags`, prints the places of that count.
cd "$(dirname "$0")/.." || exit 1
files=$(find crates -path '*/src/*' -name '*.rt' -not -path '*/out/*' | sort)
plain=$(echo "$files" | grep -v tests)

# 1: a yes or no that is answered by a call that changes something
flags() { for f in $files; do awk -v f="$f" '/fn /{s=$0; while (s !~ /[{;]$/ && s !~ /->/ && (getline l) > 0) s = s " " l; if (s ~ /&mut/ && s ~ /-> bool/) print f ": " s}' "$f"; done; }
# 1: enums of the repository's own, and numbers that stand for a kind or a refusal
enums() { grep -nE '^(pub |pub\(crate\) )?enum ' $files; }
numbers() { grep -nE '^\s+[A-Za-z:_()]+ => [0-9]+,|const [A-Z_]+: u8 =' $plain; }
# 2: function names that stand more than once in one crate, tests left out
twins() { for c in crates/*; do grep -hoE '\bfn [a-z_]+' $(echo "$plain" | grep "^$c/") /dev/null | sort | uniq -cd | sed "s|^|$c|"; done; }
# 3: loops over numbers, loops with a condition, and sums counted by hand
loops() { grep -nE '^\s*(for .* in .*\.\..*\{|while .*\{|loop \{)' $plain; }
counters() { grep -nE '^\s+[a-z_]+ \+= 1;' $plain; }
# 4: impls of the traits that can be derived or stand for a conversion
impls() { grep -nE '^impl.* (From|TryFrom|PartialEq|Eq|Ord|PartialOrd|Clone|Copy|Default|Display|Debug)(<.*>)? for ' $files; }
# 5: clauses that stand three times or more
clauses() { cat $files | grep -oE '(requires|ensures) ?[a-z_]* ?\{.*\}' | sed -E 's/^(requires|ensures) ?[a-z_]* ?//' | sort | uniq -c | awk '$1 >= 3'; }
# 6: lengths and places beside a buffer, and arrays
buffers() { grep -nE "^\s+(pub )?(head|len|count|jobs|starts|places|targets|rows|cells|bytes): (\[.*\]|usize|u8|&'[a-z]+ (mut )?\[.*\])," $plain; }
# 7: a yes or no that says which step to run
switches() { grep -nE '\b[a-z_]+: bool[,)]' $plain; }
# 8: goals that are answered by hand, and lines of proofs
answers() { find crates -path '*/proofs/*' -name '*.antt' -not -path '*/out/*' -exec grep -hE '^pub .* : goal' {} +; }
proofs() { find crates -path '*/proofs/*' -name '*.antt' -not -path '*/out/*' -exec cat {} +; }

if [ -n "$1" ]; then "$1"; exit; fi
for count in flags enums numbers twins loops counters impls clauses buffers switches answers proofs; do
    printf '%-9s %s\n' "$count" "$("$count" | wc -l)"
done
