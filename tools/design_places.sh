#!/bin/sh
# Lists where src/ may hold a place of each point of docs/DESIGN-PASS.md; run it at the top.
# Point 2 needs `duplicates`, a command that lists the runs of lines that two files share.
src() { grep -rnE "$1" crates/*/src --include=*.rt; }
echo '1. own Options and Results, flags with values, numbers for kinds'
src '^(pub )?enum |\b\w+: bool\b|let mut \w+ = (true|false)|fn (number|layer|place)s?\(|number: u8|\bNone => |let (Ok|Some)\(.*else|\b(Ok|Err)\(\w*(\(\))?\) => |if let Some'
echo '2. twins: pairs of places that share five lines or more'
dir=$(mktemp -d)
for f in crates/*/src/*.rt crates/*/src/*/*.rt crates/*/src/*/*/*.rt; do
    [ -e "$f" ] && cp "$f" "$dir/$(echo "$f" | tr / _ | sed 's/\.rt$/.rs/')"
done
if command -v duplicates > /dev/null; then
    duplicates --repo "$dir" --min-lines 5 --most 60
else
    echo "no command duplicates here"
fi
rm -r "$dir"
echo '3. loops that count by hand'
src 'for \w+ in ([0-9]|\w+\.\.)|\bwhile |\bloop \{|\+= 1;'
echo '4. equality, order, copying, conversion and printing by hand'
src 'impl.* (PartialEq|Eq|Ord|PartialOrd|Clone|From<.*>|TryFrom<.*>|fmt::Display) for|fn (same|report|numbers?|layers?|place|read|told|way|word|\w+_line|\w+_text)\(|\bas usize\b|256 \*'
echo '5. clauses that three contracts or more repeat'
grep -rhoE '^ +requires.*' crates/*/src --include=*.rt | sed -E 's/^ +requires *\w* *//' | sort | uniq -c | awk '$1 > 2'
echo '6. arrays with a length beside them, parallel arrays'
src '(: |= |-> |&)\[.*; (MAX_\w+|N)\]|^ *\}; MAX_\w+\]|(count|taken): usize,'
echo '7. switches on which step to run'
src '(kind|flaw): (Conflict|Flaw)\b|match (kind|flaw)\b'
