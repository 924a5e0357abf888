#!/bin/sh
# Counts the places of docs/DESIGN-PASS.md's eight points in crates/*/src, in the checkout that it is run in (or the folder given).
cd "${1:-$(dirname "$0")/..}" || exit 2
src() { cat crates/*/src/*.rt; }
say() { printf '%-6s %6s  %s\n' "$1" "$2" "$3"; }
signatures() { awk '/^ *(pub )?(extern "C" )?fn /{s="";on=1} on{s=s $0} on&&(/^ *\)/||/fn .*\)/){print s; on=0}' crates/*/src/*.rt; }

say 1a "$(src | grep -cE '^\s*(pub )?enum Maybe[A-Z]')" 'own enums of the shape of Option'
say 1b "$(src | grep -E '\bMaybe[A-Z]' | grep -cvE '^ *(//|ghost use|use )')" 'lines of code that name one'
say 1c "$(src | perl -0777 -ne 'while(/enum (\w+) \{(.*?)\n\}/sg){my($n,$b)=($1,$2); print "$n\n" if $b=~/^\s*(Refused|Malformed|Short|None)\b/m && $n!~/^Maybe/ && !($n=~/Refusal$/ && $b!~/^\s*None\b/m) && $n!~/Error$/}' | wc -l)" 'own enums of the shape of Result'
say 1d "$(src | grep -cE '^\s*(pub )?(refusal|answer): ')" 'fields with a refusal or an answer beside a value'
say 1e "$(src | grep -cE '^ +(pub )?(given|known|[a-z_]+_given|has_[a-z_]+|by_headings): bool,')" 'flags beside a value in structs'
say 1f "$(src | grep -oE '\b(kind|mode|code|number|part|phase|unit|source|which|list|what): u(8|32|64)\b' | wc -l)" 'numbers for kinds: fields and parameters'
say 1g "$(src | grep -cE '^(pub )?const [A-Z_0-9]+_KIND: u32|^pub const (UNREAD|POINTER|KEYS|SUMS|TOUCHES|WHEEL): u8')" 'numbers for kinds: constants'
say 1h "$(src | grep -cE 'if \(?e == 0|let e = find')" 'a number that is 0 for none'
say 2a "$(awk 'FNR==1{b="";on=0} /^ *(pub )?(extern "C" )?fn /{on=1;b="";k=0} on{l=$0; gsub(/[A-Za-z_][A-Za-z_0-9:]*/,"x",l); gsub(/[0-9]+/,"0",l); gsub(/[ \t]+/,"",l); if(l!~/^(xx?\{|\/\/)/) b=b l; k++} on&&/^ *}$/&&(/^}/||/^    }$/){if(k>5)print b; on=0}' crates/*/src/*.rt | sort | uniq -c | awk '$1>1{n+=$1} END{print n+0}')" 'functions alike but for names and numbers (exported ones too)'
say 2b "$(src | grep -cE '^ *(pub )?fn (at_most|shorter|larger|smaller|least|most|wide|long|low|high|upper|byte|joined|place)\((n|a|b|x|w|limit|low|d|id|h)?[^&]*\) ->')" 'min, max and widening by hand'
say 2c "$(src | grep -cE '^ *(pub )?fn ([a-z_]+_given|[a-z_]+_or|[a-z_]+_or_zero|is_some|is_none|or_else|first|is_(place|vec|time|info))\(')" "Option's methods by hand"
say 2d "$(src | grep -cE '^ *(pub )?(trait |fn [a-z_0-9]+<|impl<)')" '(of today: generic functions and traits)'
say 3a "$(src | grep -cE '^\s*while ')" 'while loops'
say 3b "$(src | grep -cE "^\s*(i|j|k|s|l|n|at|p|e|m|left) (\+|-)= (1|[A-Z_]+);")" 'counters stepped by hand'
say 3c "$(src | grep -cE '^ *for |\.iter\(|\.any\(|\.all\(|\.position\(|copy_from_slice|chunks')" '(of today: for loops, iterators, methods of slices)'
say 4a "$(src | grep -cE '^ *(pub )?fn (number|of|[a-z_]+_of|as_[a-z_0-9]+|from_[a-z_0-9]+)\(')" 'conversions by hand'
say 4b "$(src | grep -cE '^ *(pub )?fn (eq|ne|lt|le|cmp|before|same_[a-z_]+|[a-z_]*_(eq|ne|lt|le))\(')" 'equality and order by hand'
say 4c "$(src | grep -cE '^ *(pub )?fn (add|sub|mul|div|neg|rem|times|scaled|[a-z_0-9]+_(add|sub|mul))\((self|mut self)')" 'operators by hand (with those of impls)'
say 4d "$(src | grep -cE '\b(bytes|decimal|aligned|hex|spaces)\(out, ')" 'printing by hand'
say 4e "$(src | grep -oE 'num::wrapping_[a-z0-9_]+' | wc -l)" 'wrapping arithmetic by functions'
say 4f "$(src | grep -cE '^ *let [a-z_0-9]+ = [a-z]+\.[a-z_0-9]+;')" 'fields taken out by a let of their own'
say 4g "$(src | grep -cE 'derive\(.*(PartialEq|Default|Ord|Debug)|^impl.* (From|TryFrom|Display|Add|Sub|Mul|Div|Neg|PartialEq|Default)\b.* for ')" '(of today: derives and impls of the library’s traits)'
say 5a "$(signatures | awk '{t=$0; sub(/\) *->.*/,"",t); if(gsub(/[a-z_0-9]+: /,"",t)>=8)c++} END{print c+0}')" 'functions of eight parameters and more'
say 5b "$(signatures | grep -cE '(times|stamps): &.*positions: &')" 'the lent arrays of the history, in signatures'
say 5c "$(signatures | grep -cE 'codes: &.*(positions|places): &')" 'the lent arrays of the events, in signatures'
say 5d "$(signatures | grep -cE 'words: &.*numbers: &')" 'the arrays of the widget table, in signatures'
say 5e "$(signatures | grep -cE 'within: &.*(click|drag): |close: &.*within: &')" 'the hits of a request, in signatures'
say 5f "$(signatures | grep -cE 'lists: &.*count: u8')" 'the lists of events with a count, in signatures'
say 5g "$(src | grep -cE '^ +requires ')" 'requires clauses'
say 6a "$(signatures | grep -cE '&mut (Answer|Buffer).*[ (]n: usize')" 'a buffer and its length threaded through a function'
say 6b "$(src | grep -cE '^\s*pub (count|len|start|widgets|layers|counts|words): ')" 'counts as fields beside an array'
say 6c "$(src | grep -oE '\[[a-z_]+ \* [0-9A-Z_]+( \+ [0-9]+)?\]' | wc -l)" "an index times a row's width"
say 7a "$(src | grep -cE '\bfn [^(]*\([^)]*\b(kind|sought|ok): (u8|u32|u64|usize|Sought|bool)\b')" 'a switch handed on'
say 7b "$(src | grep -cE '^ *match (kind|mode|code|form|which|arg|head / KIND_UNIT)\b')" 'matches on which step'
say 7c "$(src | grep -cE 'impl Fn|F: Fn|dyn |\(\|[a-z_, &]*\||, \|[a-z_, &]*\|')" '(of today: closures)'
say 8a "$(find crates -path '*/proofs/*' -name '*.antt' ! -path '*/out/*' | wc -l)" 'files of proofs'
say 8b "$(find crates -path '*/proofs/*' -name '*.antt' ! -path '*/out/*' -print0 | xargs -0 cat | wc -l)" 'lines of proofs'
say 8c "$(find crates -path '*/proofs/*' ! -path '*/out/*' \( -name Answers.antt -o -name Invariants.antt \) | wc -l)" 'files of answers and invariants'
