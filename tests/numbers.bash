# Tries that the number of an opcode, an endcode or a status stands in one place, the tables of mscp_packet, and that what is said
# of one in C, in Rust and on the page is what these tables say.
tables=crates/mscp_packet/src

# The lines of sources and definitions in these folders, without comments, in which a number stands for an opcode, an endcode or a
# status: it is compared with one, it is what a match looks for, or only an endcode or a status is written so.
bare_numbers() {
    local it='\b(opcode|code|status|status_code\(\)|(b|bytes|message|text)\[8\])' number='(0x[0-9A-Fa-f]+|[0-9]+)\b'
    local spec='([a-z.]*(opcode|code)|\((status_code|code_of) [a-z.]+\)|\(slice_index [a-z]+ 8\))'
    grep -rnE --include='*.rt' --include='*.antt' --exclude-dir={out,proofs} "$@" \
        -e "$it *(==|!=|<|<=|>|>=) *$number" -e "nat_(eq|le|lt) $spec $number" -e "nat_(eq|le|lt) $number $spec" \
        -e "matches!\($it, *$number" -e "^ *\(?(_, )?0x[0-9A-F]{2,4}( [|] 0x[0-9A-F]{2,4})*[ ,)].*=>" \
        -e '\b0x(8[1-9A-F]|9[0-3]|A[0-2])\b' -e '\b0x(0[0-9A-F]|1C)(01|03|04|06|07|09|0B|23|29|49|69|89|A9)\b' |
        grep -vE '^[^:]+:[0-9]+: *(//|--)|(<|≤) 2 \^' | sed -E 's/ *-- .*//'
}

# The few that may: what a drive judges, which knows no messages; an endcode of 0, which is none; how many opcodes and codes there
# may be; modifiers, which are other bits of a message; and the trials.
may_stand() {
    grep -vE '^crates/mscp_packet/(src/(class|opcodes|endcodes|status|codes)\.rt|specs/(Opcodes|OpcodeBytes|EndcodeBytes|Statuses|StatusCodes)\.antt):' |
        grep -vE '^crates/mscp_drive/(src/(unit|block)\.rt|specs/(Extent|Blocks?)\.antt):' |
        grep -vE '^crates/mscp_saved/.*(end\.code != 0|nat_eq e\.code 0)|^crates/mscp_trials/' |
        grep -vE '\b(opcode < 256|code < 32)\b|const (NEXT_UNIT|SETS_PROTECTION): u16 = '
}

numbers_stand_in_the_tables() { diff /dev/null <(bare_numbers crates | may_stand); }

# Each of the forms is seen.
number_elsewhere_is_seen() {
    local folder
    folder=$(mktemp -d) || return
    cat >"$folder/seen.rt" <<'END'
    if opcode == 3 {
    if b[8] == 9 && four {
    matches!(code, 136 | 137)
        0x81 => 16,
        (_, 0x93) => true,
    let status = 0x0023;
END
    cat >"$folder/Seen.antt" <<'END'
is_poll s = nat_eq s.opcode 2
is_low e = nat_le 5 (status_code e)
is_end b = nat_eq (slice_index b 8) 130
END
    [ "$(bare_numbers "$folder" | wc -l)" = 9 ]
    local seen=$?
    rm -rf -- "$folder"
    return "$seen"
}

# The opcodes by number and name, and the statuses by number and words, as the tables have them.
opcode_names() {
    local name number
    sed -nE 's/^pub const ([A-Z_]+): u8 = ([0-9]+);/\1 \2/p' $tables/opcodes.rt | while read -r name number; do
        printf '%s %s\n' "$number" "$(tr -d '\n' <$tables/class.rt | grep -oE "opcodes::$name, *\"[A-Z ]+\"" | sed 's/.*, *//')"
    done | sort -n
}
status_words() {
    local name words
    sed -nE 's/^ +([A-Z][A-Z_]+) => ("[^"]+"),/\1 \2/p' $tables/status.rt | while read -r name words; do
        printf '%s %s\n' "$(sed -nE "s/^pub const $name: u16 = (0x[0-9A-F]+);/\1/p" $tables/status.rt)" "$words"
    done | sort
}
code_names() {
    local name words
    sed -nE 's/^ +codes::([A-Z_]+) => ("[^"]+"),/\1 \2/p' $tables/status.rt | while read -r name words; do
        printf '%s %s\n' "$(sed -nE "s/^pub const $name: u16 = ([0-9]+);/\1/p" $tables/codes.rt)" "$words"
    done | sort -n
}

# The lines of a function, by the words with which it begins.
lines_of() { awk -v head="$1" 'index($0, head) { inside = 1 } inside && /^}/ { exit } inside' "$2"; }

header_says_the_same() {
    local opcodes words
    opcodes=$(lines_of '*mscp_opcode_text(' include/mscp.h) words=$(lines_of '*mscp_status_words(' include/mscp.h)
    diff <(opcode_names) <(sed -nE 's/^ +case (MSCP_)?([A-Z_0-9]+): return ("[^"]+");.*/\2 \3/p' <<<"$opcodes" | while read -r name text; do
        echo "$(sed -nE "s/^ +MSCP_$name = ([0-9]+),?$/\1/p" include/mscp.h | grep . || echo "$name") $text"
    done | sort -n) &&
        diff <(status_words) <(sed -nE 's/^ +case (0x[0-9A-F]+): return ("[^"]+");/\1 \2/p' <<<"$words" | sort) &&
        diff <(code_names) <(sed -nE 's/^ +case ([0-9]+): return ("[^"]+");/\1 \2/p' <<<"$words" | sort -n)
}

rust_says_the_same() {
    local file=bindings/rust/src/words.rs
    diff <(opcode_names) <(lines_of 'fn opcode_name(' $file | sed -nE 's/^ +([0-9 |]+) => ("[^"]+"),/\1 \2/p' |
        sed -E 's/^([0-9]+) \| ([0-9]+) (.*)/\1 \3\n\2 \3/' | sort -n) &&
        diff <(status_words) <(sed -nE 's/^ +(0x[0-9A-F]+) => ("[^"]+"),/\1 \2/p' $file | sort) &&
        diff <(code_names) <(lines_of 'fn code_name(' $file | sed -nE 's/^ +([0-9]+) => ("[^"]+"),/\1 \2/p' | sort -n)
}

# The page has those that the controller answers: byte, name, class, and how many bytes are written of one.
page_says_the_same() {
    diff <(opcodes Controller | awk -F ', ' '{ print $1 ", " $2 ", " ($3 == "free" ? "transfer" : $3) ", " $5 }') \
        <(sed -nE "s/.*code: ([0-9]+), name: '([A-Z ]+)'.* kind: '(\w+)', written: ([0-9]+) .*/\1, \2, \3, \4/p" page/src/messages.js | sort -n)
}
