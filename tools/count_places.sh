#!/usr/bin/env bash
# Lists the places of the design pass in the sources below a folder (the repository by default), and counts them. Nothing runs it.
# The number before a title is that of the row in the table of docs/DESIGN-PASS.md.
cd "${1:-$(dirname "${BASH_SOURCE[0]}")/..}" || exit 1
src=$(find crates/*/src -name '*.rt' | sort)
proofs=$(find crates/*/proofs -name '*.antt' | sort)

places() { # a title, a pattern, and the files
    local title=$1 pattern=$2
    shift 2
    local found
    found=$(grep -nE "$pattern" "$@" | grep -vE '^[^:]*:[0-9]+: *//')
    echo "$title: $(printf '%s' "$found" | grep -c '')"
    printf '%s\n\n' "$found" | cut -c1-160 | sed '/^$/d; s/^/    /'
}

places '1 own enums' '^ *(pub(\(crate\))? )?enum ' $src
places '1 numbers for kinds' '^ +[A-Z][A-Za-z]*::[A-Za-z]+ => [0-9]+,$' $src
places '1 flags in structs' '^ +(pub(\(crate\))? )?[a-z_]+: bool,' $src
places '2 tables, one for each kind of record' '^ +(pub(\(crate\))? )?records: \[' $src
places '2 look-ups: a number tested by hand' 'as usize >= ' $src
places '3 loops over numbers' '\b(while|loop)\b.*\{|\bfor [a-z_]+ in [0-9a-z_]+\.\.' $src
places '4 orders by hand' '^ +(self|&& \(?self|\|\| self)\.[a-z]+ (<|==) other\.[a-z]+' $src
places '4 conversions and copies by hand' 'fn (number|record|asking)\(self|fn new\(answer' $src
places '4 printing' 'fn fmt<' $src
places '5 requires' '^ +requires' $src
places '5 facts of a line, one by one' '^ +ghost [a-z]+: \{.*\bschedule\b' $src
places '5 budget, period and largest stretch side by side' '^ +(pub(\(crate\))? )?budget: u32,|\(budget: u32, period: u32' $src
places '5 where to print and the line side by side' '^ +(pub\(crate\) )?(fn [a-z_]+<J: Judge>\()?rt: &HostRuntime|fn [a-z_]+<J: Judge>\(rt' $src
places '6 indices by hand' 'as usize\]' $src
places '7 matches on the step to run' 'match \(self\.state, event\)|=> service\.on\(event' $src
places '8 answers' '^pub [^ ]+ : goal\.' $proofs
