# One place for each fact: numbers and names that stand in several pages are those of the sources. tests/pages tries these, and
# tests/manual those that want a compiler.

# The source of a section of the page.
section() { awk -v name="$1" '/^\.SH / { inside = substr($0, 5) == name; next } inside' "$page"; }

# Two texts are the same, and aren't empty.
same() { [ -n "$1" ] && diff <(printf '%s\n' "$1") <(printf '%s\n' "$2"); }

# The size of a part of docs/SAVED.md: by its heading, and the line above its rows. Each row begins where the one before it
# ends; else the size so far is told.
laid_out() {
    awk -v part="## $1" -v name="$2:" '/^## / { inside = $0 == part } !inside { next } !/^    / && NF { rows = $0 == name }
        rows && /^    / { if ($1 != place + 0) exit; place += $2 } END { print place }' docs/SAVED.md
}

# The number that a name has in specs/Saved.antt of a crate.
sized() { sed -nE "s/^$2 = ([0-9]+)$/\1/p" "crates/$1/specs/"{,Port}Saved.antt 2>/dev/null; }

places_of_saved_bytes_add_up() {
    local part name crate size
    while IFS=, read -r part name crate size; do
        same "$(sized "$crate" "$size")" "$(laid_out "$part" "$name")" || { echo "$part, $name" && return 1; }
    done <<'END'
A controller,The head,mscp_saved,head_size
A controller,A drive,mscp_saved,drive_size
A controller,A waiting command,mscp_saved,waiting_size
A controller,An end,mscp_saved,end_size
A host,The head,mscp_host,head_size
A host,A submission,mscp_host,submission_size
A port's host,The head,mscp_host,port_head_size
A port's host,A command,mscp_host,size_size
A port,The head,mscp_port,head_size
A port,A volume,mscp_port,volume_size
A port,What is kept of a command,mscp_port,buffer_size
A port,What an end says,mscp_port,decided_size
END
}

# The fields of a definition of bytes in specs/Saved.antt of a crate, in order; those of the definitions that it names in their
# places.
saved_fields() {
    awk -v wanted="$2" '
        function fields(name, text, piece) {
            text = body[name]
            while (match(text, /[a-z_]+_bytes|[a-z]+(\.[a-z_]+)+/)) {
                piece = substr(text, RSTART, RLENGTH)
                text = substr(text, RSTART + RLENGTH)
                if (piece in body) { sub(/^ +[a-z.]+/, "", text); fields(piece) }
                else if (piece ~ /\./) { sub(/.*\./, "", piece); print piece }
            }
        }
        /^abbrev |^--/ { name = "" }
        /^[a-z_]+_bytes / && !/ : / { name = $1; sub(/^[^=]*=/, "") }
        name != "" { body[name] = body[name] " " $0 }
        END { fields(wanted) }' "crates/$1/specs/Saved.antt"
}

# The words of the rows of a part of docs/SAVED.md, behind so many.
saved_rows() {
    awk -v part="## $1" -v name="$2:" -v skipped="$3" '/^## / { inside = $0 == part } !inside { next } !/^    / && NF { rows = $0 == name }
        rows && /^    / && row++ >= skipped { sub(/^ *[0-9]+ +[0-9]+ +/, ""); print }' docs/SAVED.md
}

# A row says what its field is: rows of one size can't be exchanged.
rows_of_saved_bytes_are_their_fields() {
    local part name skipped crate definition pairs pair fields row
    while IFS='|' read -r part name skipped crate definition pairs; do
        fields=$(saved_fields "$crate" "$definition" | tr '\n' ' ') || return
        same "$(sed -E 's/=[^;]*(;|$)/ /g; s/ +/ /g' <<<"$pairs")" "${fields}" || { echo "$definition" && return 1; }
        exec {rows}< <(saved_rows "$part" "$name" "$skipped")
        while IFS= read -r -d ';' pair; do
            IFS= read -r row <&"$rows" && [[ $row == "${pair#*=}"* ]] || { echo "$part, $name: '$row' isn't '${pair#*=}'" && return 1; }
        done <<<"$pairs;"
        exec {rows}<&-
    done <<'END'
A controller|The head|3|mscp_saved|limits_bytes|credits=credits of the first;second=credits of the second;budget=budget;longest=longest transfer
A controller|A drive|0|mscp_saved|drive_bytes|number=unit number;track=blocks of a track;group=tracks of a group;cylinder=groups of a cylinder;size=blocks of the unit;id=unit identifier;media=media type;serial=volume serial;online=whether it is online;up=whether its head goes up;cylinder=the cylinder
A controller|A waiting command|0|mscp_saved|waiting_bytes|command=its message;done=how many steps it had;passed=by how many blocks;connection=its connection
A host|A submission|0|mscp_host|submission_bytes|reference=reference number;unit=unit number;opcode=opcode
A port|A volume|0|mscp_port|volume_bytes|is_there=whether there is one;is_protected=whether nothing may be written;is_protected_by_host=whether its host said so;is_news=whether its host is to hear;is_removable=whether it can be taken out;is_mounted=whether the unit is online;changes=how often;size=its blocks;media=the type
A port|What is kept of a command|0|mscp_port|buffer_bytes|reference=reference number;address=where its data;count=how many bytes;modifiers=modifiers;flags=unit flags;changes=how often;opcode=opcode
A port|What an end says|0|mscp_port|decided_bytes|status=status;flags=the flags;media=the type;size=its blocks;code=endcode
END
}

# The drives of docs/PORT.md are those of examples/drives.h.
drives_are_those_of_the_header() {
    local program
    program=$(mktemp -d) || return
    cat >"$program/drives.c" <<'END'
#include "drives.h"
#include <stdio.h>
int main(void)
{
    for (size_t i = 0; i < sizeof drives / sizeof *drives; i++) {
        const struct drive *it = &drives[i];
        printf("| %s | %u | %u, %u, %u | %u | 0x%08X | %s |\n", it->name, (unsigned)it->blocks, it->track, it->group, it->cylinder,
               it->model, (unsigned)drive_media(it), it->is_read_only ? "yes; read only" : it->is_removable ? "yes" : "no");
    }
    return 0;
}
END
    cc -Iinclude -Iexamples "$program/drives.c" -o "$program/drives" && same "$("$program/drives")" "$(grep -E '^\| RR?[ADX][0-9]+ \|' docs/PORT.md)"
    local status=$?
    rm -r -- "$program"
    return "$status"
}

# The variants of the faults of a restore in this file, in order.
restore_faults() { awk '/^pub enum RestoreFault/ { inside = 1 } inside && /^}/ { exit } inside' "$1" | sed -nE 's/^    ([A-Z][a-z]+).*/\1/p'; }

# Those that a part of docs/SAVED.md lists, in order.
listed_faults() {
    awk -F '|' -v part="## $1" '/^## / { inside = $0 == part } inside && /^[|] `/ { print $2 }' docs/SAVED.md | grep -oE '[A-Z][a-z]+'
}

faults_of_saved_bytes_are_told() {
    same "$(restore_faults crates/mscp_saved/src/fault.rt)" "$(listed_faults 'A controller')" &&
        same "$(restore_faults crates/mscp_host/src/restoring.rt)" "$(listed_faults 'A host')" &&
        same "$(restore_faults crates/mscp_port/src/port/restoring.rt)" "$(listed_faults 'A port')"
}

# The rows of specs/Opcodes.antt whose commands these answer here: byte, name, class, both lengths, and the body of the end.
opcodes() {
    local specs=crates/mscp_packet/specs rows moves row byte name it
    rows=$(sed 's/(move_byte kind) (move_name kind) //' $specs/Opcodes.antt | tr -s '\n ' ' ')
    moves=$(grep -oE ' row Free [0-9]+ [0-9]+ kinds\.\w+ \w+ \(move_modifiers kind\) \w+' <<<"$rows")
    {
        grep -oE ' row bytes\.\w+ \(codes "[A-Z ]+"\) \w+ [0-9]+ [0-9]+ kinds\.\w+ \w+ \w+ \w+' <<<"$rows"
        grep -oE 'move_byte moves\.\w+ = bytes\.\w+' <<<"$rows" | while read -r _ _ _ byte; do
            name=${byte#bytes.} name=${name//_/ }
            echo " row $byte (codes \"${name^^}\")${moves# row}"
        done
    } | while IFS= read -r row; do
        [[ $row =~ bytes\.([a-z_]+)\ \(codes\ \"([A-Z\ ]+)\"\)\ ([A-Za-z]+)\ ([0-9]+)\ ([0-9]+)\ kinds\.([A-Za-z]+)\ .*\ ([A-Za-z]+)$ ]] || return
        it=("${BASH_REMATCH[@]}")
        [[ ${it[7]} =~ ^($1)$ ]] || continue
        byte=$(sed -nE "s/^${it[1]} = ([0-9]+)$/\1/p" $specs/OpcodeBytes.antt)
        echo "$byte, ${it[2]}, ${it[3],}, ${it[4]}, ${it[5]}, ${it[6]}${2:+, ${it[7],}}"
    done | sort -n
}

opcodes_are_told() {
    same "$(opcodes Controller)" "$(awk -F ' *[|] *' '/^## / { exit } /^### / { inside = $0 == "### Commands" }
        inside && $2 ~ /^[0-9]+$/ && NF > 7 { sub(/`, .*/, "", $8); sub(/`/, "", $8); print $2 ", " $3 ", " $4 ", " $6 ", " $7 ", " $8 }' \
        <(sed 1,3d docs/FORMATS.md))" &&
        same "$(opcodes 'Port|Nobody' answerer | sed -E 's/, [0-9]+, Bare//')" "$(awk -F ' *[|] *' '/^## / { exit } /^### / { inside = $0 == "### Commands" }
        inside && $2 ~ /^[0-9]+$/ && NF == 7 { print $2 ", " $3 ", " $4 ", " $5 ", " $6 }' <(sed 1,3d docs/FORMATS.md))"
}

# The statuses of specs/Statuses.antt, each as its number and its name.
ended_statuses() { sed -nE 's/^([a-z_]+) = (0x[0-9A-F]{4})$/\2 \U\1/p' crates/mscp_packet/specs/Statuses.antt | sort; }

ended_statuses_are_told() {
    same "$(ended_statuses)" \
        "$(sed -nE 's/^\| `(0x[0-9A-F]{4})` \| `([A-Z_]+)`.*/\1 \2/p' docs/FORMATS.md | sort)"
}

# The names of an enum of the header, behind this front part of theirs.
enumerated() { sed -nE "s/^ +$1([A-Z]+) = [0-9]+.*/\1/p" include/mscp.h; }

actions_are_told() {
    local table
    table=$(awk '/^[|] Action/ { inside = 1; next } inside && !/^[|]/ { exit } inside' docs/PORT.md)
    same "$(enumerated MSCP_ACTION_)" "$(sed -nE 's/^\| `([A-Z]+)` .*/\1/p' <<<"$table")" &&
        same "$(enumerated MSCP_OUTCOME_ | sort)" "$(awk -F '|' '{ print $4 }' <<<"$table" | grep -oE '`[A-Z]+`' | tr -d '`' | sort -u)"
}

# Each status with which a port ends a transfer stands in docs/PORT.md, behind what it means, and each code of a fatal error.
statuses_of_a_port_are_told() {
    local source=crates/mscp_port/src page words name number
    page=$(tr -s '\n ' ' ' <docs/PORT.md)
    while IFS='|' read -r words name; do
        number=$(sed -nE "s/^pub const $name: u16 = (0x[0-9A-F]{4});.*/\1/p" crates/mscp_packet/src/status.rt)
        [ -n "$number" ] && [[ $page == *"$words ($number)"* ]] || { echo "docs/PORT.md hasn't '$words ($number)'" && return 1; }
    done <<'END'
odd addresses|ODD_ADDRESS
counts|ODD_COUNT
write protection by host|PROTECTED_BY_HOST
hardware|PROTECTED
missing memory|MISSING
a parity error|PARITY
no mapping|UNMAPPED
a difference|DIFFERENT
END
    same "$(grep -rhoE 'self\.die\([0-9]+' $source | grep -oE '[0-9]+' | sort -nu)" \
        "$(awk -F '|' '/^[|] Code/ { inside = 1 } inside && !/^[|]/ { exit } inside { print $2 }' docs/PORT.md | grep -oE '[0-9]+')"
}

# The texts of a function of the judge's program, a line each, without blanks at their ends.
texts_of() {
    awk -v name="fn $1[<(]" '$0 ~ name { inside = 1 } inside && /^}/ { exit } inside' "crates/mscpjudge/src/$2.rt" |
        grep -oE '"[^"]+"' | sed -E 's/^"//; s/ ?"$//'
}

# The codes of the first column of the tables of a page below a heading, without the name of a command behind them.
rules_below() {
    awk -F '|' -v heading="$1" '/^## / { inside = $0 == heading } inside && /^[|].*`/ { print $2 }' "$2" | grep -oE '`[^`]+`' |
        sed -E 's/`//g; s/ C$//'
}

rules_of_the_judge_are_told() {
    local legal
    legal=$(texts_of put_rule judging && texts_of put_served judging && texts_of put_holder judging)
    same "$(texts_of rule_name wire)" "$(rules_below '## The rules' docs/JUDGE.md)" &&
        same "$(sort <<<"$legal")" "$(rules_below '## Logs' docs/JUDGE.md | grep -vE '^(legal|.*not legal)$' | sort)"
}

# What specs/ say of each rule above its name, as 'NAME: WHAT', and what a part of docs/JUDGE.md says of these.
explained() {
    awk -v definition="$1" '/^-- / { said = said (said == "" ? "" : " ") substr($0, 4); next }
        index($0, definition " rules.") == 1 { split($0, part, "\""); print part[2] ": " said } { said = "" }' "crates/mscpjudge/specs/$2.antt"
}
explained_below() {
    awk -F '|' -v heading="$1" '/^## / { inside = $0 == heading } inside && /^[|].*`.*[|]/ {
        name = $2; gsub(/^[^`]*`|`.*/, "", name); gsub(/^ | $/, "", $3); print name ": " $3 }' docs/JUDGE.md
}

rules_of_the_judge_are_explained() {
    same "$(explained rule_name Wired)" "$(explained_below '## The rules')" &&
        same "$(explained rule_text Said)" "$(explained_below '## Logs' | grep -v 'not legal' | grep -E "^($(explained rule_text Said | sed 's/: .*//' | paste -sd '|')): ")"
}

# What the header says of each outcome of an action is what the port's sources say of it, but for where the status is.
outcomes_are_told() {
    same "$(awk '/^pub enum Outcome/ { inside = 1; next } inside && /^}/ { exit }
            inside && /[/][/][/]/ { sub(/^ *[/]+ /, ""); sub(/[.]$/, ""); said = tolower(substr($0, 1, 1)) substr($0, 2) }
            inside && /^    [A-Z]/ { sub(/[(,].*/, ""); if (n++ > 0) print "MSCP_OUTCOME_" toupper($1) " = " n - 1 ": " said }' \
        crates/mscp_port/src/action.rt | sed 's/ with this status$/ with the status beside it/')" \
        "$(sed -nE 's!^ +(MSCP_OUTCOME_[A-Z]+ = [0-9]),? +/\* (.*) \*/$!\1: \2!p' include/mscp.h)"
}

# No two names of one list of the header mean the same.
names_of_the_header_differ() {
    awk '/^enum / { split("", seen) }
        match($0, /[/][*] .* [*][/]$/) && /^    MSCP_[A-Z_]+ = / {
            said = substr($0, RSTART)
            if (said in seen) { print seen[said] " and " $1 ": " said; wrong = 1 }
            seen[said] = $1
            n++
        }
        END { exit wrong || n < 100 }' include/mscp.h
}

# The number of a name of the header, that a call of the C file answers, or of a line of the sources that this expression finds.
number_of() {
    case $1 in
        MSCP_*) sed -nE "s/^#define $1 ([0-9]+)u.*/\1/p" include/mscp.h ;;
        mscp_*) sed -nE "/^static u64 w_$1\(/,/^\}/s/^ +return ([0-9]+)ull;/\1/p" portable/mscp.c ;;
        *) grep -hoE -- "${1#*:}" "${1%%:*}" | head -n 1 | grep -oE '[0-9]+$' ;;
    esac
}

# A number with a comma before each three digits.
grouped() { sed -E ':again; s/([0-9])([0-9]{3})($|,)/\1,\2\3/; t again' <<<"$1"; }

numbers_are_those_of_the_sources() {
    local source pages page number
    while IFS='|' read -r source pages; do
        number=$(number_of "$source")
        for page in $pages; do
            [ -n "$number" ] && { grep -qwF -- "$(grouped "$number")" "$page" || grep -qwF -- "$number" "$page"; } ||
                { echo "$page hasn't $source: $number" && return 1; }
        done
    done <<'END'
MSCP_SAVED_MAX|docs/C.md docs/SAVED.md
MSCP_HOST_SAVED_MAX|docs/C.md docs/SAVED.md
MSCP_PORT_SAVED_MAX|docs/C.md docs/SAVED.md
MSCP_DRIVER_SAVED_MAX|docs/C.md docs/SAVED.md
crates/mscp_saved/src/fields.rt:const ROOM: usize = [0-9]+|docs/SAVED.md crates/mscp_saved/README.md
crates/mscp_host/src/saving.rt:const ROOM: usize = [0-9]+|docs/SAVED.md crates/mscp_host/README.md
crates/mscp_host/src/port_saving.rt:const PORT_HOST_ROOM: usize = [0-9]+|docs/SAVED.md crates/mscp_host/README.md
crates/mscp_port/src/port/saving.rt:const ROOM: usize = [0-9]+|docs/SAVED.md crates/mscp_port/README.md
MSCP_SIZE|docs/SPEED.md
MSCP_HOST_SIZE|docs/SPEED.md
MSCP_PORT_SIZE|docs/SPEED.md
mscp_size|docs/SPEED.md
mscp_host_size|docs/SPEED.md
mscp_port_size|docs/SPEED.md
crates/mscp_drive/specs/Settings.antt:c\.longest ≤ [0-9]+|docs/FORMATS.md docs/USING.md docs/mscpq.1 include/mscp.h
crates/mscp_reader/specs/Grammar.antt:length bytes ≤ [0-9]+|docs/FORMATS.md docs/mscpq.1 include/mscp.h
crates/mscp_reader/specs/Grammar.antt:length new\) [0-9]+|docs/FORMATS.md docs/mscpq.1 include/mscp.h
END
}

# The statuses of a program's specification, in order.
exit_numbers() { sed -nE '/^(exit|fault)_status .*= [0-9]+$/s/.* = //p' "crates/$1/specs/Endings.antt" | sort -nu; }

# Those that a man page has, in order.
listed_numbers() { awk '/^[.]SH / { inside = $0 == ".SH EXIT STATUS" } inside && /^[.]B [0-9]+$/ { print $2 }' "docs/$1.1"; }

exit_statuses_are_told() {
    same "$(exit_numbers mscp_script)" "$(listed_numbers mscpq)" && same "$(exit_numbers mscpjudge)" "$(listed_numbers mscpjudge)"
}

# A page says this sentence with the number of the sources that the expression finds, in place of %, or with so many less.
sentences_have_the_numbers_of_the_sources() {
    local page sentence source number text less
    while IFS='|' read -r page sentence source less; do
        number=$(grep -hoE -- "${source#*:}" "${source%%:*}" | head -n 1 | grep -oE '(0x)?[0-9A-F]+$')
        [ -z "$less" ] || number=$((number - less))
        text=$(tr -s '\n ' ' ' <"$page")
        [ -n "$number" ] && [[ $text == *"${sentence//%/$number}"* ]] || { echo "$page hasn't '${sentence//%/$number}'" && return 1; }
    done <<'END'
docs/C.md|of the first ends: up to % in each, beside|crates/mscp_port/specs/Packets.antt:1 \+ min untold [0-9]+
docs/C.md|Bytes % to 27 of a transfer's message|crates/mscp_port/specs/Buffers.antt:address = four_or_zero b [0-9]+
docs/C.md|Longer ones end with `%`|crates/mscp_drive/src/unit.rt:const INVALID_BYTE_COUNT: u16 = 0x[0-9A-F]+
docs/TUNING.md|A longer one ends with %.|crates/mscp_drive/src/unit.rt:const INVALID_BYTE_COUNT: u16 = 0x[0-9A-F]+
docs/PORT.md|a transfer past the end of its volume, with % or|crates/mscp_drive/src/unit.rt:const INVALID_BLOCK: u16 = 0x[0-9A-F]+
docs/PORT.md|0x1C01 or %.|crates/mscp_drive/src/unit.rt:const INVALID_BYTE_COUNT: u16 = 0x[0-9A-F]+
docs/USING.md|% to 64 on the first connection|crates/mscp_drive/specs/Settings.antt:some_credits : [0-9]+
docs/USING.md|none or 2 to % on the second|crates/mscp_drive/specs/Settings.antt:few_credits : c.credits \+ c.second ≤ [0-9]+|2
docs/USING.md|none or % to|crates/mscp_drive/specs/Settings.antt:second_credits : \(c.second ≡ 0\) ⊎ \([0-9]+
docs/USING.md|at most % on both|crates/mscp_drive/specs/Settings.antt:few_credits : c.credits \+ c.second ≤ [0-9]+
examples/simh/rq_show.c|HEAD = % + 16|crates/mscp_port/specs/Saved.antt:head_size = [0-9]+
examples/simh/rq_show.c|bytes[VERSION] == %;|crates/mscp_port/specs/Saved.antt:^version = [0-9]+
examples/simh/rq_show.c|A_KEPT = %,|crates/mscp_port/specs/Saved.antt:buffer_size = [0-9]+
examples/simh/rq_show.c|AN_END = %,|crates/mscp_port/specs/Saved.antt:decided_size = [0-9]+
include/mscp.h|the first's credits aren't % to 64|crates/mscp_drive/specs/Settings.antt:some_credits : [0-9]+
include/mscp.h|or both have over % */|crates/mscp_drive/specs/Settings.antt:few_credits : c.credits \+ c.second ≤ [0-9]+
include/mscp.h|the longest transfer isn't 1 to % blocks */|crates/mscp_drive/specs/Settings.antt:c\.longest ≤ [0-9]+
END
}

# The parts of a crate's page, in this order.
parts_of_a_crate='What a contract sees
What is proved
What is only tested
What is neither'

# Each word of code in a page that is a name: of a crate's page in what it, the header or the tests have.
names_in() { grep -oE '`[^`]+`' "$1" | tr -d '`' | tr -c '[:alnum:]_\n' '\n' | grep -E '^[A-Za-z_]{4,}$' | sort -u; }

crates_say_what_they_are() {
    local crate name
    for crate in crates/*; do
        same "$parts_of_a_crate" "$(sed -nE 's/^\*\*(What [a-z ]+)\.?\*\*.*/\1/p' "$crate/README.md")" || { echo "$crate" && return 1; }
        for name in $(names_in "$crate/README.md"); do
            grep -rqw -- "$name" "$crate"/{src,specs,proofs} crates/mscp_trials/src include/mscp.h tests 2>/dev/null ||
                [ -n "$(find crates/mscp_trials "$crate" -name "$name*" -print -quit)" ] || { echo "$crate: $name isn't there" && return 1; }
        done
    done
}

# Each name of code that docs/PROVED.md has is in the sources, but for the line of the kit.
proved_names_are_there() {
    local name
    sed '/^Proved by `/d' docs/PROVED.md >"$room/proved"
    for name in $(names_in "$room/proved"); do
        grep -rqw -- "$name" crates/*/{src,specs} include building.bash portable tests crates.txt || [ -e "crates/$name" ] ||
            { echo "$name isn't there" && return 1; }
    done
}

links_lead_somewhere() {
    local page
    for page in README.md CHANGELOG.md docs/*.md crates/*/README.md examples/README.md bench/README.md bindings/rust/README.md; do
        leads_nowhere "./$page"
    done | diff /dev/null -
}
