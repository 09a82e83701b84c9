#!/bin/sh
# Lists the places in src/ that docs/DESIGN-PASS.md counts, point by point; run it at the top.
cd "$(dirname "$0")/.." || exit 1
look() { grep -rnE "$2" crates/*/src --include='*.rt' | sed "s/^/$1 /"; }
# 1: variants that may mean none; numbers that stand for kinds; success told by a flag; a flag beside a value; a Result or an Option taken apart by hand
look 1a '^\s+(Nothing|Other|End|Bad|Unreadable),'
look 1b '(motion|plane|measure|zero): Option<u32>|Function\(u32\)|\(?g: u32\)|^\s+(17|18|19|54|55|56|57|91) =>'
look 1c '&mut self.*-> bool'
look 1d 'minus: bool, thousandths: u64 \}|\(bool, usize\)'
look 1e 'Err\(\w+\) => (return )?Err\(|Ok\(\w+\) => Ok\(|Some\([^)]*\) => Some\(|None => None|Err\(_\) =>|Ok\(\w+\) => \w+,$|Some\(\w+\) => \w+,$'
# 2: functions and types of one shape, by their names, as they were found by reading
look 2 'fn (keeps_lower|keeps_upper|at_least|at_most|x_from_to|y_from_to|digits_end|name_end|code_end|line_end|field_start|field_end|value|capped|nearest_after|nearest_up_to|lesser_line|greater_line|after|up_to|within|in_range|added|each_within|each_present_within|present_within|axis_words|centre_words|is_digit|is_blank|of_axis|along|any|is_empty|all_zero)\b|pub (enum Axis|struct Axes)|const (MOST_MOTIONS|MOST_LINES|ENOUGH)\b'
# 3: loops that count an index by hand
look 3 '\bwhile .*(\.len\(\)|\.line\()|for \w+ in [0-9a-z]+\.\.|^\s+\w+ \+= 1;|\.iter\(\)\.enumerate\(\)'
# 4: conversions by `as`, printing of refusals by hand, equality by number
look 4a ' as [iu](8|16|32|64|128|size)\b'
look 4b 'refused \{number\}|let number = refusal'
look 4c '^(pub |pub\(crate\) )?(fn|    fn) (is_letter|is_mark|letter|sign_mark|compared|heading|interpolation|plane|measure|slot|plane_at)\('
# 5: parameters that travel together, and facts that contracts repeat
look 5a '\((line|text): &\[u8\], (at|from): usize|^    line: &\[u8\],$'
look 5b 'requires.*(row_in_range|arc_in_range|each_within position_range|present_within position_range|self\.old\.due ≤ 2000|in_range value|InRange)|ensures ranged'
look 5c 'functions: &Functions, at: &Position|^    functions: &Functions,|numbers: &mut Index|numbers: &mut \[Entry'
# 6: a buffer with a length beside, a place and a length, a text and where it ends
look 6 '^\s+(pub )?(used|from|length|end): usize,'
# 7: a switch on which step to run
look 7 'if (upper|forward|adds|minus)\b|: fn\('
