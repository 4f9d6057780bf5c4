#!/usr/bin/env bash
# Lists the lines of src/ that may be places of docs/DESIGN-PASS.md, point by point; with -c, only how many. Each hit has to be read.
set -uo pipefail
cd "${PLACES_IN:-$(dirname "$0")/..}"

count=${1:-}
look() {
    local name=$1 pattern=$2
    if [ "$count" = -c ]; then
        printf '%4d  %s\n' "$(grep -rnE "$pattern" crates/*/src --include='*.rt' | grep -vcE ':[0-9]+:\s*//')" "$name"
    else
        printf '== %s\n' "$name"
        grep -rnE "$pattern" crates/*/src --include='*.rt' | grep -vE ':[0-9]+:\s*//'
    fi
}

look '1 enums' '^ *(pub(\(crate\))? )?enum '
look '1 numbers with names' 'const [A-Z_]+: u(8|16|32) = [0-9x_]+;'
look '1 kinds and refusals as numbers' 'mode: u16|mode\(.*-> u16|mode_of\(.*-> u16|Result<[^>]*, u8>|-> \(?u8|-> Option<\(u8|refused: u8|which: u8|u32, u8\);'
look '1 zero for none' 'else \{ 0 \}|=> 0,|^ +0$'
look '2 names that end in a number or differ by one word' 'fn (get|put)[0-9]|fn (two|four|eight)_bytes|fn (has|own|come|entries|segments|position)[_(]|fn status\(|fn (chain_limit|store_minimum)|fn (tell|bare|step|report|write_and_read|carry)[(<]|enum Stop|fn (sized|bring_up|queue|agree)[(<]|struct Car|_(area|place)\(|fn region_size'
look '3 loops' '^ *(for .* in |while |loop )'
look '4 comparison and conversion' 'fn is_same|fn is_unused|impl From|\bas (u8|u16|u32|u64|usize)\b'
look '4 printing' 'let (number|status|written|kept|lost|length) = (refusal|reply|counts|C::data)|fn tell'
look '4 values with no comparison' '^#\[derive\((Clone, Copy|Drop|Clone, Copy, Debug)\)\]'
look '5 facts and parameters' 'Served|modulus: u32, (from|mark)|capacity: u16[,)]|mode: u16, capacity|requires \{ .*×'
look '6 arrays beside one another, lengths beside buffers' 'tags: \[|counts: \[|count: usize,|const LARGEST_[A-Z]+: usize|row_at|worked_case\('
look '7 switches on a step' 'enum Call|match call|fn (make|listed|wrong)[(<]'
