#!/bin/sh
# Counts, in the sources of all crates, the lines that each point of docs/DESIGN-PASS.md is counted by.
# `count-places.sh -v` prints the lines too. Tests are left out.
cd "$(dirname "$0")/../crates" || exit 1

sources() { find */src -name '*.rt' ! -name 'tests.rt' | sort; }

# how many lines of the sources match, and with -v which
count() {
    lines=$(sources | xargs grep -nE -- "$2")
    printf '%-4s %4d  %s\n' "$1" "$(printf '%s' "$lines" | grep -c '')" "$3"
    if [ "$verbose" ]; then printf '%s\n' "$lines" | sed 's/^/           /'; fi
}

[ "$1" = "-v" ] && verbose=1

count 1a '^ +(No[A-Z][A-Za-z0-9]*|Nothing|Stop),$' 'cases of own enums that mean none'
count 1b '[a-z_]+: bool[,)]' 'a bool in a struct or a parameter'
count 1c 'fn [a-z0-9_]+\(\) -> u8$|, 0 where none' 'numbers that stand for nothing'
count 1d '(Err\([a-z_]+\) => (return )?Err\(|None => (return )?(None|Err))' 'errors handed on by a match'
count 2a 'fn (push_shown|push_first|hex_digit|is_reserved|hand_out|copy|front|cut|larger|meta_key_v[a-z0-9_]+|is_key|is_prefix|has_key_form|has_prefix_form|short|long|key_of|value_of|word|follow|squeezed_len|squeeze|next_key|next_child|[a-z_]+_call|push_path|push_key|path_answer|key_answer|through_[a-z]+|in_upper|next_slash|line_end|hex_of|hex_value|digit_value|is_hex|seek|find)\b' 'functions that have a twin'
count 2b '^(pub(\(crate\))? )?(struct (StoreKey|StorePrefix)|enum (Refusal|PileFault|Failure))\b' 'types that have a twin'
count 3a '^ *(while|loop)\b' 'while and loop'
count 3b '^ *for [a-z_]+ in [^&]*\.\.' 'for over numbers'
count 3c '^ *[a-z_.]+ (\+|-)= [a-z0-9_]+;$' 'a number counted up or down'
count 4a '^impl(<.*>)? (PartialEq|Eq|PartialOrd|Ord|Ordered|OrderedBy)\b.* for' 'comparisons written by hand'
count 4b '\bequal\(|\bcompare(_by)?\(' 'comparisons called by a name of our own'
count 4c 'fn (name|row|path|sentence|refused|push_fault)\(' 'conversions and printing by hand'
count 5a 'requires ([a-z]+ )?\{ ?\(?(at ≤ length (doc|bytes)\.now|Sound self|Ascending |self\.(old|now)\.len ≤ length)' 'a fact required by three functions or more'
count 5b '(doc|bytes): &\[u8\], at: usize' 'a text and a place in it'
count 5c 'out: &mut Vec<u8>' 'an output handed along'
count 5d 'meaning_of S\.' 'the meaning of a store spelled out'
count 5e '^ +(inner|outer): &Rows,' 'the rows of a pile handed along'
count 6a '^ +(pub(\(crate\))? )?(len|used|count): (usize|u8),' 'a length beside a buffer'
count 6b '\[0u8; ?[0-9A-Z]+\]' 'buffers of a fixed size'
count 7a '\b(Work|Put|ByteRank)\b' 'strategies by a trait'
count 7b '\bdyn |\bFn(Mut|Once)?\(' 'closures taken and dyn'
printf '%-4s %4d  %s\n' 8a "$(find */proofs -name '*.antt' | xargs cat | wc -l)" 'lines of proofs'
printf '%-4s %4d  %s\n' 8b "$(find */proofs -name 'Answers.antt' | wc -l)" 'files of answers'
