#!/bin/sh
# Counts, in the sources of a commit, the lines where the forms of docs/DESIGN-PASS.md are to be looked for:
#     tools/places.sh [COMMIT]            the counts, one line for each pattern
#     tools/places.sh COMMIT 3b           the lines that one pattern finds
commit=${1:-HEAD}
only=$2

look() {
    if [ -z "$only" ]; then
        printf '%-3s %4d   %s\n' "$1" "$(git grep -hE -e "$2" "$commit" -- 'crates/*/src/*.rt' | wc -l)" "$2"
    elif [ "$only" = "$1" ]; then
        git grep -nE -e "$2" "$commit" -- 'crates/*/src/*.rt'
    fi
}

# 1: enums of one's own, matches on an answer, numbers for kinds, flags, early refusals, answers in pairs, numbers that stand for none
look 1a '\benum [A-Z]'
look 1b '\b(Some|None|Ok|Err)\b.* =>'
look 1c '=> [0-9]+,'
look 1d '\w: bool\b'
look 1e 'return (Err|None|Ok)\b'
look 1f '\) -> \('
look 1g 'skip: u32|, k, block\)|let mut (right|k) = |^ *let _ = .*\?;'
# 2: all functions, to be read for twins; faults by layer; limits as numbers
look 2a '^ *(pub(\([a-z]+\))? )?fn '
look 2b 'Fault::(tray|shelf|script)\('
look 2c '\b(512|13|1024)\b'
# 3: loops
look 3a '\b(while|loop) .*\{$'
look 3b '^ *(.\w+: )?for .*\{$'
look 3c '\bfor \w+ in .*\.\.'
# 4: impls and conversions by hand, ranges and cases by hand
look 4a '^impl.* (Clone|Copy|PartialEq|Eq|Ord|From<.*|TryFrom<.*|Default|Hash|fmt::Display) for'
look 4b ' as (u8|char)\b|b.0. \+|b.a. \+'
look 4c '[<>]=? .*(&&|\|\|) .*[<>]=? '
look 4d 'match self \{'
# 5: clauses that say several facts, facts about a width, a roster, a tray; three numbers for a shape
look 5a '^ *requires .*×'
look 5b '\bis_width \w+ ≡ true'
look 5c '^ *requires .*\bRoom\b'
look 5d 'roster_of|flat_of|cabinet_of|made_of'
look 5e 'ghost_name ≡ self\.old|cells\.now ≡ self\.old'
look 5f 'columns: u32,|rows: u32, size: u32'
# 6: a place or a length beside a buffer, buffers of a fixed size
look 6a '\bfn .*\b(at|len|first|slot|size): usize'
look 6b '\[0(u8)?; [0-9A-Z]'
# 7: closures, tables of functions, values of any type
look 7a 'fn\(|dyn |impl Fn|: Fn(Mut|Once)?\('
