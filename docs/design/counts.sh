#!/usr/bin/env bash
# The counts of docs/DESIGN-PASS.md. usage: docs/design/counts.sh [CHECKOUT]
here=$(cd "$(dirname "${BASH_SOURCE[0]}")" && pwd)
cd "${1:-.}" || exit 1
n() { printf '%6s  %s\n' "$2" "$1"; }
r() { grep -rnE "$1" crates/*/src --include=*.rt; }
n "1 own enums" "$(r '^(pub(\([a-z]+\))? )?enum ' | wc -l)"
n "1 derives beyond Clone, Copy" "$(r '\bderive\(' | grep -vc 'Clone, Copy)')"
n "1 lines with Option< or Result<" "$(r '\b(Option|Result)<' | wc -l)"
n "1 lines with ?, of code" "$(r '\?[;,).]' | grep -vcE 'ghost|ensures|requires|//|some\?|every\?|short\?|long\?|utf8\?|project\?')"
n "1 numbers for kinds, codes, refusals in parameters" "$(r '\b(kind|code|unit|format|item|position|answer|refusal|tag|weekday|accrual|duration_type): (u8|u32|u64)\b' | wc -l)"
n "1 tests of a place past the end" "$(r '7 < [a-z.]*\bbit\b' | wc -l)"
n "3 while" "$(r '^\s*while\b' | grep -vc 'while let')"
n "3 while let" "$(r '^\s*while let\b' | wc -l)"
n "3 loop" "$(r '^\s*loop\b' | wc -l)"
n "3 for" "$(r '^\s*for\b' | wc -l)"
n "3 counters by hand (+= 1, -= 1, += 8)" "$(r '[+-]= 1;|\+= 8;' | wc -l)"
n "4 casts by as" "$(grep -rnoE '\bas (u8|u16|u32|u64|usize|i32|i64|f64)\b' crates/*/src --include=*.rt | wc -l)"
n "4 range tests by two comparisons" "$(r '<= \w+(\.\w+)*\) & \(\w+(\.\w+)* <=' | wc -l)"
n "4 min or max by if" "$(r 'if \w+ < \w+ \{ \w+ \} else \{ \w+ \}' | wc -l)"
n "4 free wrapping functions" "$(r '\bwrapping_(add|sub)_u' | grep -vc '^[^:]*:[0-9]*:use')"
n "6 calls into tables and marks by free functions" "$(r '\bindex::(put|first|next|place|clear|clear_words|word|set_word|table_at|end_of|reach)\(|\bmarks::\w+\(' | wc -l)"
n "7 match on a kind" "$(r '\bmatch (kind|which|list|sort|k|n|w|item)\b' | wc -l)"
n "7 if on a flag" "$(r '^\s*if !?(extra|old|check|hours|positioned|elapsed|whole_day|keep|minus|by_count)\b' | wc -l)"
n "8 files of proofs/" "$(find crates/*/proofs -name '*.antt' | wc -l)"
n "8 lines of proofs/" "$(cat $(find crates/*/proofs -name '*.antt') | wc -l)"
p="python3 $here/places.py"
$p apart . | tail -1; $p twins . | grep groups; $p casts . | tail -1; $p groups . | tail -1; $p params . | tail -1; $p switches . | tail -1
