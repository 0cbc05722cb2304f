#!/bin/sh
# Counts the places in crates/*/src that docs/DESIGN-PASS.md speaks of. With -l, lists them.
cd "$(dirname "$0")/.." || exit 1
LIST=$1
count() {
    title=$1
    shift
    found=$("$@")
    n=$(printf '%s' "$found" | grep -c .)
    printf '%4d  %s\n' "$n" "$title"
    if [ "$LIST" = -l ]; then printf '%s\n' "$found" | sed 's/^/        /'; fi
}
src() { grep -rnE --include='*.rt' "$@" crates/*/src | grep -vE ':[0-9]+:\s*//'; }
# A line that matches the first pattern, followed by one that matches the second.
pair() {
    find crates/*/src -name '*.rt' | sort | while read -r f; do
        awk -v a="$1" -v b="$2" -v f="$f" 'p && $0 ~ b { print f ":" NR - 1 ": " l } { p = ($0 ~ a); l = $0 }' "$f"
    done
}
# The functions with at least that many parameters.
parameters() {
    find crates/*/src -name '*.rt' | sort | xargs perl -0777 -ne '
        while (/fn ([a-z_]+)(?:<[^(]*>)?\(([^)]*)\)/g) {
            my ($n, $p, $k) = ($1, $2, 0);
            $k++ while $p =~ /(?:^|,)\s*(?:mut )?(?:&(?:mut )?self\b|self\b|[a-z_]+\s*:)/g;
            print "$ARGV: $n, $k\n" if $k >= '"$1"';
        }'
}
# The lines that stand in more than one file, each with the files.
twice() {
    grep -rhoE --include='*.rt' "$1" crates/*/src | sort | uniq -c | awk '$1 > 1'
}

echo 'Point 1: Option, Result, enums'
count 'an early return of None in place of ?' pair 'else [{]$' '^ *return None;$'
count 'a test and None in place of a method of Option or bool' src '^\s*None$|\{ None \}|else \{ None'
count 'an error by let-else in place of ok_or and ?' pair 'let (Some|Ok).* else [{]$' 'return Err'
count 'an arm that hands an Err on' src 'Err\((fault|error|f|e)\) => (return )?Err\(|=> return Err\(e'
count 'a theorem that returns a number' src 'fn [a-z_]+\(\) -> u8'
count 'a number for a kind or a refusal' src 'fn (number|kind)\(self\) -> u8|kind: u8|^(pub )?const [A-Z_]+: u8 =|Refused\(u8\)|number: u8'
count 'enums, to be read' src '^\s*(pub(\([a-z]+\))? )?enum '
count 'a flag in a struct' src '^\s+(pub(\([a-z]+\))? )?[a-z_]+: bool,'
count 'a value that stands for nothing' src 'const (NOTHING|NOWHERE|EMPTY|ZERO)\b|Nothing,|Unknown,'

echo 'Point 2: twins'
count 'a constant that is written twice' twice '^(pub )?const [A-Z_]+: [a-z0-9]+ = [^;]*;'
count 'a function or method of one name and head written twice' twice '^ *(pub(\([a-z]+\))? )?fn [a-z_]+(<[^(]*>)?\([^)]*\)( -> [^{]*)?'
count 'a type of one name written twice' twice '^(pub(\([a-z]+\))? )?(struct|enum) [A-Z][A-Za-z]*'

echo 'Point 3: loops'
count 'while and loop' src '^\s*(while |loop \{)'
count 'for over indices' src 'for [a-z_]+ in [^{]*\.\.'
count 'for with enumerate' src 'for \([a-z]+, .*enumerate'

echo 'Point 4: equality, order, copying, conversion, printing'
count 'impl of a trait of std by hand' src '^impl.* (From|TryFrom|Display|PartialEq|Eq|Ord|PartialOrd|Clone|Copy|Debug|Drop|Default)(<.*>)? for '
count 'a conversion or printing as a function' src 'fn (word|hex|digit|number|kind_for|put_le|of_[a-z]+|to_[a-z]+)\b'
count 'as between numbers' src '\bas (u8|u32|i32|u64|i64|usize|char)\b'

echo 'Point 5: facts and parameters'
count 'a clause that stands three times or more' sh -c "grep -rhoE --include='*.rt' '^\s*(requires|ensures)( [a-z_]+)? \{.*\}\$' crates/*/src | sed -E 's/^ *//' | sort | uniq -c | awk '\$1 > 2'"
count 'a function with six parameters or more' parameters 6

echo 'Point 6: buffers, arrays, searches'
count 'an array of a fixed number' src '\[[A-Za-z]+; [A-Z0-9_]+\]|\[[a-z]+; [0-9]+\]'
count 'a length or an index beside what it is of' src '^\s+(pub(\([a-z]+\))? )?(used|depth|levels|length|low|high|size|from|to|start|end): usize,'

echo 'Point 7: switches'
count 'a match or a test of a step, a language or a mark' src 'match .*(step\(|language|state|closing)|if .*language'
count 'a function pointer, a table of functions, dyn' src '[:(,<] *fn\(|\bdyn '
