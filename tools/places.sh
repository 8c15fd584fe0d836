#!/bin/sh
# Lists the places that the design pass counts, in the sources below a folder (by default this one).
# Usage: tools/places.sh [FOLDER]
cd "${1:-$(dirname "$0")/..}" || exit 1
show() { echo "== $1"; grep -nE "$2" crates/*/src/*.rt; echo "   $(cat crates/*/src/*.rt | grep -cE "$2") lines"; }
show '1a enums, to be read' '^(pub(\(crate\))? )?enum '
show '1b numbers answered by a match' '=> [0-9]+,$'
show '1c an Option taken apart or made by hand' 'None => (false|true|None)|_ => (Some|None)|\{ Some\([a-z_]+\) \} else \{ None \}'
show '1d constants and numbers handed out, to be read' '^(pub(\(crate\))? )?const |-> (Result<)?u32'
echo '== 2a functions of a name that stands in two files or more, to be read'
for name in $(for file in crates/*/src/*.rt; do grep -ohE '^ *(pub(\(crate\))? )?fn [a-z_0-9]+' "$file" | sed 's/.*fn //' | sort -u; done | sort | uniq -d); do
    grep -nE "^ *(pub(\(crate\))? )?fn $name[(<]" crates/*/src/*.rt
done
show '2b questions that differ in one call' 'self\.(ready|record)\(values\)\?'
show '3a loops over a range of numbers' 'for [a-z_]+ in [^{]*[0-9a-z_]\.\.'
show '3b while and loop' 'while |loop \{'
show '4 equality, order, copying, conversion, printing' '^impl.* (PartialEq|Eq|PartialOrd|Ord|Clone|Copy|Default|From<.*>|TryFrom<.*>|Display|fmt::Display|Debug) for|^ *(pub(\(crate\))? )?fn (eq|cmp|equals|same|spelled|findings|part|to_[a-z]+|from_[a-z]+)[(<]'
show '5a facts that stand in several contracts' 'Ready self.now values.now|IsTidy|Asked \(IsBook|top < 4294967295|self.old.count ≤ most_runs|Placed members_of'
show '5b parameters that travel together' 'top: u32|values: &\[u32\]'
show '6 buffers, parallel arrays, reads by an index' 'count: usize|next: usize|m: usize|const (NAMES|WEIGHTS)|(sets|values|weights|runs|row|flags)\[[^]]*\]'
show '7 tables of functions' '(^|[^a-z_.])fn\(|dyn |impl Fn'
echo '== 8 proofs: lines and answers, by crate'
for crate in sets editing book edit amounts; do
    files=$(find "crates/$crate/proofs" "crates/$crate/specs" -name '*.antt' 2>/dev/null)
    echo "$crate $(cat /dev/null $files | wc -l) lines of specs and proofs, $(find "crates/$crate/proofs" -name 'Answers.antt' 2>/dev/null | xargs cat /dev/null 2>/dev/null | grep -c '^pub ') answers"
done
