# Logs of the wire, for tests/judge: one that is right, and for each rule some that break it and some that just don't. The
# packets are made here by the manual's layouts.

# A number in so many bytes, the lowest first.
low_first() {
    local number=$1 count=$2
    while [ "$count" -gt 0 ]; do
        printf '%02x' $((number & 255))
        number=$((number >> 8)) count=$((count - 1))
    done
}

# A packet of so many bytes: of this reference number, unit, opcode or endcode, and status, and with the numbers behind in
# four bytes each.
packet() {
    local length=$1 reference=$2 unit=$3 code=$4 status=$5 text number
    shift 5
    text=$(low_first "$reference" 4)$(low_first "$unit" 2)0000$(printf '%02x' "$code")00$(low_first "$status" 2)
    for number; do text+=$(low_first "$number" 4); done
    printf '%-*s' $((2 * length)) "$text" | tr ' ' 0
}

# Lines of hosts: each of this reference number, to unit 0 if no other is said.
online() { echo "send $(packet 12 "$1" "${2-0}" 9 0)"; }
available() { echo "send $(packet 12 "$1" "${2-0}" 8 0)"; }
reading() { echo "send $(packet 32 "$1" "${2-0}" 33 0 1024)"; }
poll() { echo "send $(packet 16 "$1" "${3-0}" 2 0 "$2")"; }
unit_status() { echo "send $(packet 12 "$1" "$2" 3 "$3")"; } # with these modifiers
abort() { echo "send $(packet 16 "$1" 0 1 0 "$2")"; }

# Lines of a controller: each of this reference number and status.
onlined() { echo "end $(packet 44 "$1" "${3-0}" 137 "$2")"; }
availed() { echo "end $(packet 12 "$1" 0 136 "$2")"; }
moved() { echo "end $(packet 32 "$1" "${4-0}" 161 "$2" "$3")"; }
unit_told() { echo "end $(packet 48 "$1" "$2" 131 0)"; }
polled() { echo "end $(packet 20 "$1" "${4-0}" 130 0 "$2" "$3")"; }
aborted() { echo "end $(packet 16 "$1" 0 129 "$2" "$3")"; }

# A log of examples/, by its name and on standard input.
captured() {
    local status=1 judged=${1%.wire}.judged
    [ "$(head -n 1 "$judged")" != right ] || status=0
    "$program" wire "$1" </dev/null >"$room/out" 2>"$room/err"
    [ $? = "$status" ] && cmp -- "$room/out" "$judged" && cmp -- "$room/err" /dev/null || return
    "$program" wire <"$1" >"$room/out" 2>"$room/err"
    [ $? = "$status" ] && cmp -- "$room/out" "$judged"
}

# The judge says this of these lines, and ends with this status.
wire_says() {
    local status
    printf '%s\n' "${@:3}" >"$room/log"
    "$program" wire "$room/log" </dev/null >"$room/out" 2>"$room/err"
    status=$?
    [ "$status" = "$2" ] && cmp -- "$room/out" <(printf '%s\n' "$1") && cmp -- "$room/err" /dev/null
}

# The lines are right: so many moments, messages, polls, ends and resets, and then this is still outstanding. Other totals
# are passed over.
wire_is_right() {
    local totals
    read -ra totals <<<"$1"
    printf '%s\n' "${@:3}" >"$room/log"
    "$program" wire "$room/log" </dev/null >"$room/out" 2>"$room/err" && cmp -- "$room/err" /dev/null &&
        sed 's/ queue [0-9]*$//; /^falls /d; /^sent: /d; /^ended: /d; /^longest/d; /^hasty/d' "$room/out" | cmp -- - <(echo "right
moments ${totals[0]} messages ${totals[1]} polls ${totals[2]} ends ${totals[3]} resets ${totals[4]}${2:+
$2}")
}

# What is said of a moment that breaks a rule, without the lines of its values, and of those where they were told.
without_values() { grep -vE '^(end|message|passes|names|figure of command [0-9]+|length|bytes|identifier|media type|size|credits): ' | without_places; }
without_places() { grep -vE '^(the other was sent|sent|what it passes was sent|the last was told) in line [0-9]+( at [0-9.]+)?$'; }

# The last of the lines breaks a rule, and these are its values.
wire_values() {
    printf '%s\n' "${@:2}" >"$room/log"
    "$program" wire "$room/log" </dev/null >"$room/out" 2>"$room/err"
    [ $? = 1 ] && cmp -- <(sed '1,2d; /^command: /d; /^manual: /d' "$room/out" | without_places) <(printf '%s\n' "$1")
}

# Messages and ends of each kind, also such as are too short. A number that a poll was never told is none.
values_of_rules() {
    local known other
    known=$(packet 48 2 0 131 0 0 0 1 0x01020304 0x25644064)
    other=$(packet 48 3 0 131 0 0 0 2 0x01020304 0x25644065)
    wire_values 'message: 3 bytes' 'send 010000' &&
        wire_values 'message: opcode 0x4d, 12 bytes' "$(online 7)" "send $(packet 12 7 0 77 0)" &&
        wire_values $'end: 3 bytes\nlength: 3, asked for 12 at least' "$(online 7)" 'end 070000' &&
        wire_values 'end: endcode 0xa1, status 0x00e8, command 9 of unit 258, 32 bytes' "$(moved 9 232 512 258)" &&
        wire_values $'end: endcode 0xa1, status 0x0000, command 3 of unit 0, 32 bytes\npasses: second AVAILABLE 2 of unit 0' \
            "second $(available 2)" "second $(reading 3)" "second $(moved 3 0 1024)" &&
        wire_values $'end: endcode 0x81, status 0x0000, command 5 of unit 0, 16 bytes\nnames: command 3, not 2' \
            "$(reading 2)" "$(abort 5 2)" "$(aborted 5 0 3)" &&
        wire_values $'end: endcode 0x82, status 0x0000, command 4 of unit 0, 20 bytes\nfigure of command 2: 9, the last was 8' \
            "$(reading 2)" "$(poll 3 2)" "$(polled 3 2 8)" "$(poll 4 2)" "$(polled 4 2 9)" &&
        wire_values $'end: endcode 0x82, status 0x0000, command 3 of unit 0, 20 bytes\nfigure of command 2: 1, the last was 0' \
            "$(poll 3 2)" "$(polled 3 2 1)" &&
        wire_values $'end: endcode 0xa1, status 0x0000, command 2 of unit 0, 32 bytes\nbytes: 512, asked for 1024' \
            "$(reading 2)" "$(moved 2 0 512)" &&
        wire_values 'end: endcode 0x83, status 0x0000, command 3 of unit 0, 48 bytes
identifier: 0x0102030400000002, was 0x0102030400000001
media type: 0x25644065, was 0x25644064' "$(unit_status 2 0 0)" "end $known" "$(unit_status 3 0 0)" "end $other" &&
        wire_values $'end: endcode 0x89, status 0x0100, command 3 of unit 0, 44 bytes\nsize: 7, was 5' \
            "$(online 2)" "end $(packet 44 2 0 137 0 0 0 1 0 0 0 5)" "$(online 3)" \
            "end $(packet 44 3 0 137 256 0 0 1 0 0 0 7)" &&
        wire_values $'end: endcode 0x84, status 0x0000, command 3 of unit 0, 28 bytes
identifier: 0x0000000000000007, was 0x0000000000000005' "send $(packet 32 2 0 4 0)" "end $(packet 28 2 0 132 0 0 0 5)" \
            "send $(packet 32 3 0 4 0)" "end $(packet 28 3 0 132 0 0 0 7)"
}

# The last of the lines breaks this rule, by a command if it is told.
wire_breaks() {
    printf '%s\n' "${@:3}" >"$room/log"
    "$program" wire "$room/log" </dev/null >"$room/out" 2>"$room/err"
    [ $? = 1 ] && cmp -- "$room/err" /dev/null &&
        cmp -- <(head -n -1 "$room/out" | without_values) <(printf 'line %d: not right\nrule of the %s\n%s' "$(wc -l <"$room/log")" "$1" \
            "${2:+command: $2$'\n'}") && tail -n 1 "$room/out" | grep -q '^manual: .'
}

wire_of_a_right_controller() {
    wire_is_right '16 8 3 8 0' '' 'credits 4' '# comes up' "@0.5 $(online 1)" "@0.75 $(onlined 1 0)" "$(reading 2)" "$(poll 3 2)" \
        "$(polled 3 2 2)" '' '@9' "$(poll 3 2)" "$(polled 3 2 1)" "$(reading 4 7)" "$(moved 4 3 0 7)" "$(abort 5 2)" \
        "$(moved 2 2 512)" "$(aborted 5 0 2)" "$(poll 6 2)" "$(polled 6 2 0)" "second $(online 1)" "second $(onlined 1 256)"
}

# Opcodes and codes are told in their order, and the longest queue is that of the middle.
wire_totals() {
    wire_says 'right
moments 10 messages 5 polls 1 ends 4 resets 1 queue 3
sent: 1 GET COMMAND STATUS (2)
sent: 1 ONLINE (9)
sent: 2 READ (33)
sent: 1 command of an unknown opcode (77)
ended: 2 Success (0)
ended: 1 Invalid Command (1)
ended: 1 Data Error (8)' 0 "$(online 1)" "$(reading 2)" "$(reading 3)" "$(onlined 1 0)" "$(poll 4 2)" "$(polled 4 2 5)" \
        "$(moved 2 232 512)" "send $(packet 12 5 0 77 0)" "end $(packet 12 5 0 128 2049)" reset
}

# A figure falls by 7, 60 and 3. The first one of a command is no fall: another host's, one of a number that was used before,
# and one behind a reset. That of a command which is answered when it arrives needn't fall.
wire_falls() {
    local log=("$(reading 1)" "$(poll 2 1)" "$(polled 2 1 100)" "$(poll 3 1)" "$(polled 3 1 93)" "$(poll 4 1)" \
        "$(polled 4 1 33)" "$(poll 5 1)" "$(polled 5 1 30)")
    log+=("second $(reading 1)" "second $(poll 2 1)" "second $(polled 2 1 5)")
    log+=("$(unit_status 8 0 0)" "$(poll 9 8)" "$(polled 9 8 500)" "$(poll 10 8)" "$(polled 10 8 200)")
    log+=("$(moved 1 0 1024)" "$(reading 1)" "$(poll 2 1)" "$(polled 2 1 29)")
    log+=(reset "$(reading 1)" "$(poll 2 1)" "$(polled 2 1 28)")
    wire_says 'right
moments 25 messages 14 polls 9 ends 10 resets 1 queue 4
falls 3 to 60
sent: 9 GET COMMAND STATUS (2)
sent: 1 GET UNIT STATUS (3)
sent: 4 READ (33)
ended: 10 Success (0)
outstanding: READ 1 of unit 0' 0 "${log[@]}"
}

wire_tells_what_is_outstanding() {
    wire_is_right '2 2 0 0 0' $'outstanding: READ 7 of unit 1\noutstanding: second ONLINE 7 of unit 0' "$(reading 7 1)" \
        "second $(online 7)" && wire_is_right '4 3 1 0 1' 'outstanding: READ 7 of unit 1' "$(reading 7 1)" "$(poll 8 7)" reset \
        "$(reading 7 1)"
}

host_messages() { wire_breaks 'host: message' '' "send $(packet 11 1 0 33 0 | head -c 22)"; }

host_numbers() {
    wire_breaks 'host: reference number' 'READ 2 of unit 0' "$(reading 2)" "second $(reading 2)" "$(reading 2)" &&
        wire_is_right '3 2 0 1 0' 'outstanding: READ 2 of unit 0' "$(reading 2)" "$(moved 2 0 1024)" "$(reading 2)"
}

host_credits() {
    local many
    mapfile -t many < <(for ((n = 1; n < 1024; n++)); do reading "$n"; done)
    wire_breaks 'host: credits' 'READ 1024 of unit 0' "${many[@]}" "$(reading 1024)" &&
        wire_breaks 'host: credits' 'GET COMMAND STATUS 1025 of unit 0' "${many[@]}" "$(poll 1024 1)" "$(poll 1025 1)" &&
        wire_breaks 'host: credits' 'READ 1024 of unit 0' 'credits 4294967295' "${many[@]}" "$(reading 1024)" &&
        wire_breaks 'host: credits' 'READ 2 of unit 0' 'credits 2' "$(reading 1)" "$(reading 2)" &&
        wire_breaks 'host: credits' 'GET COMMAND STATUS 3 of unit 0' 'credits 2' "$(reading 1)" "$(poll 2 1)" "$(poll 3 1)" &&
        wire_is_right '2 2 0 0 0' $'outstanding: READ 1 of unit 0\noutstanding: second READ 1 of unit 0' 'credits 2' \
            "$(reading 1)" "second $(reading 1)"
}

end_lengths() {
    wire_breaks 'controller: length' '' "$(reading 1)" "end $(packet 28 1 0 161 0 1024)" &&
        wire_breaks 'controller: length' '' "$(online 1)" "end $(packet 40 1 0 137 0)" && wire_breaks 'controller: length' '' 'end 00'
}

ends_of_nobody() {
    wire_breaks 'controller: outstanding' '' "$(reading 1)" "$(moved 1 0 1024)" "$(moved 1 0 1024)" &&
        wire_breaks 'controller: outstanding' '' "$(reading 1)" "second $(moved 1 0 1024)" &&
        wire_breaks 'controller: outstanding' '' "$(reading 1)" reset "$(moved 1 0 1024)"
}

# What the controller tells unasked is no end.
attention_messages() {
    wire_is_right '2 1 0 1 0' '' "$(online 1)" "$(onlined 1 0)" "end $(packet 44 0 0 64 0)" "second end $(packet 12 1 3 64 0)" &&
        wire_is_right '1 1 0 0 0' 'outstanding: ONLINE 0 of unit 0' "$(online 0)" "end $(packet 44 0 0 64 0)" &&
        wire_breaks 'controller: outstanding' '' "end $(packet 12 0 0 65 0)" && wire_breaks 'controller: length' '' 'end 0000000000000000'
}

end_units() {
    wire_breaks 'controller: unit' 'READ 1 of unit 3' "$(reading 1 3)" "$(moved 1 0 1024 2)" &&
        wire_breaks 'controller: unit' 'READ 1 of unit 3' "$(reading 1 3)" "$(moved 1 0 1024 0)" &&
        wire_breaks 'controller: unit' 'GET UNIT STATUS 1 of unit 3' "$(unit_status 1 3 0)" "$(unit_told 1 4)" &&
        wire_breaks 'controller: unit' 'ONLINE 1 of unit 3' "send $(packet 12 1 3 9 1)" "$(onlined 1 0 4)" &&
        wire_is_right '2 1 0 1 0' '' "$(unit_status 1 3 1)" "$(unit_told 1 4)"
}

endcodes() {
    local opcode
    wire_breaks 'controller: endcode' 'READ 1 of unit 0' "$(reading 1)" "end $(packet 32 1 0 162 0 1024)" || return
    for opcode in 1 2 3 4 8 9 10 33 34; do
        wire_breaks 'controller: endcode' "$(opcode_named "$opcode") 1 of unit 0" "send $(packet 32 1 0 "$opcode" 0)" \
            "end $(packet 12 1 0 128 2049)" || return
    done
    for opcode in 11 16 17 18 19 20 32 47; do
        wire_is_right '2 1 0 1 0' '' "send $(packet 32 1 0 "$opcode" 0)" "end $(packet 12 1 0 128 2049)" || return
    done
}

# What the judge calls an opcode.
opcode_named() {
    case $1 in
        1) echo ABORT ;;
        2) echo GET COMMAND STATUS ;;
        3) echo GET UNIT STATUS ;;
        4) echo SET CONTROLLER CHARACTERISTICS ;;
        8) echo AVAILABLE ;;
        9) echo ONLINE ;;
        10) echo SET UNIT CHARACTERISTICS ;;
        33) echo READ ;;
        34) echo WRITE ;;
        11) echo DETERMINE ACCESS PATHS ;;
        17) echo COMPARE CONTROLLER DATA ;;
        19) echo FLUSH ;;
        20) echo REPLACE ;;
    esac
}

statuses() {
    wire_breaks 'controller: status' 'ERASE 1 of unit 0' "send $(packet 32 1 0 18 0)" "end $(packet 12 1 0 128 0)" &&
        wire_breaks 'controller: status' 'GET UNIT STATUS 1 of unit 3' "$(unit_status 1 3 0)" "end $(packet 48 1 3 131 6)" &&
        wire_is_right '4 2 0 2 0' '' "$(unit_status 1 3 0)" "end $(packet 48 1 3 131 4)" "$(unit_status 2 3 0)" \
            "end $(packet 48 2 3 131 11)" &&
        wire_breaks 'controller: status' 'READ 1 of unit 0' "$(reading 1)" "$(moved 1 12 0)" &&
        wire_breaks 'controller: status' 'ONLINE 1 of unit 0' "$(online 1)" "$(onlined 1 4)" &&
        wire_breaks 'controller: status' 'ABORT 1 of unit 0' "$(abort 1 9)" "$(aborted 1 3 9)" &&
        wire_is_right '2 1 0 1 0' '' "send $(packet 12 1 0 47 0)" "end $(packet 12 1 0 175 12)" # FORMAT
}

# What a message is too short for doesn't succeed.
short_messages() {
    wire_breaks 'controller: status' 'READ 1 of unit 0' "send $(packet 31 1 0 33 0 0)" "$(moved 1 0 0)" &&
        wire_breaks 'controller: status' 'ABORT 1 of unit 0' "send $(packet 15 1 0 1 0)" "$(aborted 1 0 0)" &&
        wire_breaks 'controller: status' 'SET CONTROLLER CHARACTERISTICS 1 of unit 0' "send $(packet 13 1 0 4 0)" \
            "end $(packet 28 1 0 132 0)" &&
        wire_breaks 'controller: status' 'REPLACE 1 of unit 0' "send $(packet 31 1 0 20 0)" \
            "end $(packet 12 1 0 148 0)" &&
        wire_is_right '2 1 0 1 0' '' "send $(packet 32 1 0 20 0)" "end $(packet 12 1 0 148 0)" &&
        wire_is_right '2 1 0 1 0' '' "send $(packet 31 1 0 33 0)" "$(moved 1 1 0)" &&
        wire_is_right '2 1 0 1 0' '' "send $(packet 14 1 0 4 0)" "end $(packet 28 1 0 132 0)" &&
        wire_is_right '2 1 0 1 0' '' "send $(packet 12 1 0 47 0)" "end $(packet 12 1 0 175 0)"
}

# Only an ONLINE tells that its unit was online already, and Invalid Command names a byte of its message.
subcodes() {
    wire_breaks 'controller: status' 'READ 1 of unit 0' "$(reading 1)" "$(moved 1 256 1024)" &&
        wire_breaks 'controller: status' 'AVAILABLE 1 of unit 0' "$(available 1)" "$(availed 1 256)" &&
        wire_is_right '2 1 0 1 0' '' "$(available 1)" "$(availed 1 512)" &&
        wire_is_right '2 1 0 1 0' '' "send $(packet 12 1 0 47 0)" "end $(packet 12 1 0 175 256)" &&
        wire_breaks 'controller: status' 'AVAILABLE 1 of unit 0' "$(available 1)" "$(availed 1 $((12 * 256 + 1)))" &&
        wire_is_right '2 1 0 1 0' '' "$(available 1)" "$(availed 1 $((11 * 256 + 1)))" &&
        wire_is_right '2 1 0 1 0' '' "send $(packet 12 1 0 33 0)" "$(moved 1 $((12 * 256 + 1)) 0)"
}

aborts_without_an_abort() {
    wire_breaks 'controller: aborted' 'READ 1 of unit 0' "$(reading 1)" "$(moved 1 2 0)" &&
        wire_breaks 'controller: aborted' 'READ 1 of unit 0' "$(reading 1)" "$(abort 2 1)" "$(aborted 2 0 1)" "$(moved 1 2 0)" &&
        wire_breaks 'controller: aborted' 'READ 1 of unit 0' "$(reading 1)" "$(abort 2 3)" "$(moved 1 2 0)" &&
        wire_breaks 'controller: aborted' 'READ 1 of unit 0' "$(reading 1)" "second $(abort 2 1)" "$(moved 1 2 0)" &&
        wire_breaks 'controller: aborted' 'READ 1 of unit 0' "$(abort 2 1)" "$(reading 1)" "$(moved 1 2 0)" &&
        wire_is_right '4 2 0 2 0' '' "$(reading 1)" "$(abort 2 1)" "$(moved 1 2 0)" "$(aborted 2 0 1)"
}

orders() {
    wire_breaks 'controller: order' 'READ 2 of unit 0' "$(online 1)" "$(reading 2)" "$(moved 2 0 1024)" &&
        wire_breaks 'controller: order' 'AVAILABLE 2 of unit 0' "$(reading 1)" "$(available 2)" "$(availed 2 0)" &&
        wire_breaks 'controller: order' 'AVAILABLE 2 of unit 0' "$(online 1)" "$(available 2)" "$(availed 2 0)" &&
        wire_is_right '5 3 0 2 0' 'outstanding: ONLINE 1 of unit 0' "$(online 1)" "$(reading 2 1)" "$(moved 2 0 1024 1)" \
            "$(reading 3)" "$(moved 3 1 0)" &&
        wire_is_right '3 2 0 1 0' 'outstanding: READ 1 of unit 0' "$(reading 1)" "$(reading 2)" "$(moved 2 0 1024)"
}

# Commands that ask nothing of a disk, and that this project doesn't know, keep their place too, and others don't.
orders_of_others() {
    local opcode
    for opcode in 11 17 19 20; do
        wire_breaks 'controller: order' "$(opcode_named "$opcode") 2 of unit 0" "$(online 1)" \
            "send $(packet 32 2 0 "$opcode" 0)" "end $(packet 32 2 0 $((opcode + 128)) 0)" &&
            wire_breaks 'controller: order' 'AVAILABLE 2 of unit 0' "send $(packet 32 1 0 "$opcode" 0)" "$(available 2)" \
                "$(availed 2 0)" &&
            wire_is_right '3 2 0 1 0' 'outstanding: READ 1 of unit 0' "$(reading 1)" "send $(packet 32 2 0 "$opcode" 0)" \
                "end $(packet 32 2 0 $((opcode + 128)) 0)" || return
    done
    wire_is_right '3 2 0 1 0' 'outstanding: ONLINE 1 of unit 0' "$(online 1)" "send $(packet 12 2 0 47 0)" \
        "end $(packet 12 2 0 175 0)"
}

successes() {
    wire_breaks 'controller: success' 'ABORT 1 of unit 0' "$(abort 1 9)" "$(aborted 1 1 9)" &&
        wire_is_right '2 1 0 1 0' '' "send $(packet 12 1 0 1 0)" "$(aborted 1 1 0)"
}

# A command that has no modifier may be refused for one, but not as if it were answered.
refused_modifiers() {
    wire_is_right '2 1 0 1 0' '' "send $(packet 16 1 0 1 16384 7)" "$(aborted 1 2561 7)" &&
        wire_is_right '3 2 1 1 0' 'outstanding: READ 1 of unit 0' "$(reading 1)" "send $(packet 16 2 0 2 16384 1)" \
            "end $(packet 20 2 0 130 2561)" &&
        wire_breaks 'controller: success' 'GET COMMAND STATUS 2 of unit 0' "$(reading 1)" "$(poll 2 1)" \
            "end $(packet 20 2 0 130 2561 1 5)" &&
        wire_breaks 'controller: about' 'ABORT 1 of unit 0' "send $(packet 16 1 0 1 16384 7)" "$(aborted 1 0 8)"
}

abouts() {
    wire_breaks 'controller: about' 'GET COMMAND STATUS 2 of unit 0' "$(reading 1)" "$(poll 2 1)" "$(polled 2 3 5)" &&
        wire_breaks 'controller: about' 'ABORT 2 of unit 0' "$(reading 1)" "$(abort 2 1)" "$(aborted 2 0 0)"
}

wire_figures() {
    local told=("$(reading 1)" "$(poll 2 1)" "$(polled 2 1 5)" "$(poll 3 1)")
    wire_breaks 'controller: figure' 'GET COMMAND STATUS 3 of unit 0' "${told[@]}" "$(polled 3 1 5)" &&
        wire_breaks 'controller: figure' 'GET COMMAND STATUS 3 of unit 0' "${told[@]}" "$(polled 3 1 6)" &&
        wire_breaks 'controller: figure' 'GET COMMAND STATUS 4 of unit 0' "${told[@]}" "$(polled 3 1 0)" "$(poll 4 1)" \
            "$(polled 4 1 4)" &&
        wire_breaks 'controller: figure' 'GET COMMAND STATUS 2 of unit 0' "$(reading 1)" "$(poll 2 9)" "$(polled 2 9 1)" &&
        wire_is_right '5 3 2 2 0' 'outstanding: READ 1 of unit 0' "${told[@]}" "$(polled 3 1 4)" &&
        wire_is_right '6 3 1 3 0' '' "$(reading 1)" "$(poll 2 1)" "$(moved 1 0 1024)" "$(reading 1)" "$(polled 2 1 7)" \
            "$(moved 1 0 1024)"
}

# A poll tells what is right at any time until it is answered: 0 once the command ended, whose end may come later, and else a
# figure lower than the last one told before the poll.
figures_meanwhile() {
    local told=("$(reading 1)" "$(poll 2 1)" "$(polled 2 1 5)" "$(poll 3 1)")
    wire_is_right '6 3 2 3 0' '' "${told[@]}" "$(moved 1 0 1024)" "$(polled 3 1 4)" &&
        wire_is_right '6 3 2 3 0' '' "${told[@]}" "$(moved 1 0 1024)" "$(polled 3 1 0)" &&
        wire_is_right '6 3 2 3 0' '' "${told[@]}" "$(polled 3 1 0)" "$(moved 1 0 1024)" &&
        wire_breaks 'controller: figure' 'GET COMMAND STATUS 3 of unit 0' "${told[@]}" "$(moved 1 0 1024)" "$(polled 3 1 5)" &&
        wire_is_right '5 3 2 2 0' 'outstanding: READ 1 of unit 0' "$(reading 1)" "$(poll 2 1)" "$(poll 3 1)" "$(polled 3 1 4)" \
            "$(polled 2 1 5)" &&
        wire_is_right '4 2 1 2 0' '' "$(poll 2 1)" "$(reading 1)" "$(moved 1 0 1024)" "$(polled 2 1 9)" &&
        wire_breaks 'controller: figure' 'GET COMMAND STATUS 2 of unit 0' "$(poll 2 1)" "$(reading 3)" "$(moved 3 0 1024)" \
            "$(polled 2 1 9)" &&
        wire_is_right '8 4 2 4 0' '' "${told[@]}" "$(moved 1 0 1024)" "$(reading 1)" "$(polled 3 1 9)" "$(moved 1 0 1024)"
}

# Only the oldest command of a host has to go on, and what was told of it before it was the oldest isn't compared. A command
# that is answered when it arrives isn't waited for.
figures_of_the_oldest() {
    local two=("$(reading 1)" "$(reading 2)" "$(poll 3 2)" "$(polled 3 2 5)")
    wire_is_right '6 4 2 2 0' $'outstanding: READ 1 of unit 0\noutstanding: READ 2 of unit 0' "${two[@]}" "$(poll 4 2)" \
        "$(polled 4 2 5)" &&
        wire_is_right '7 4 2 3 0' 'outstanding: READ 2 of unit 0' "${two[@]}" "$(moved 1 0 1024)" "$(poll 4 2)" \
            "$(polled 4 2 5)" &&
        wire_breaks 'controller: figure' 'GET COMMAND STATUS 5 of unit 0' "${two[@]}" "$(moved 1 0 1024)" "$(poll 4 2)" \
            "$(polled 4 2 5)" "$(poll 5 2)" "$(polled 5 2 5)" &&
        wire_breaks 'controller: figure' 'GET COMMAND STATUS 5 of unit 0' "$(unit_status 1 0 0)" "$(reading 2)" "$(poll 4 2)" \
            "$(polled 4 2 5)" "$(poll 5 2)" "$(polled 5 2 5)" &&
        wire_breaks 'controller: figure' 'GET COMMAND STATUS 5 of unit 0' "second $(reading 1)" "$(reading 2)" "$(poll 4 2)" \
            "$(polled 4 2 5)" "$(poll 5 2)" "$(polled 5 2 5)"
}

# If a poll names another unit than its command's, any figure is right, and none is compared with it.
figures_of_another_unit() {
    local told=("$(reading 1)" "$(poll 2 1)" "$(polled 2 1 5)")
    wire_is_right '5 3 2 2 0' 'outstanding: READ 1 of unit 0' "${told[@]}" "$(poll 3 1 7)" "$(polled 3 1 9 7)" &&
        wire_is_right '7 4 3 3 0' 'outstanding: READ 1 of unit 0' "${told[@]}" "$(poll 3 1 7)" "$(polled 3 1 0 7)" \
            "$(poll 4 1)" "$(polled 4 1 4)" &&
        wire_breaks 'controller: figure' 'GET COMMAND STATUS 4 of unit 0' "${told[@]}" "$(poll 3 1 7)" "$(polled 3 1 9 7)" \
            "$(poll 4 1)" "$(polled 4 1 5)"
}

# A poll that comes sooner than the controller timeout after the last one is the host's haste, if the log tells that
# timeout and both times: any figure is right, and it isn't compared with a later one.
hasty_polls() {
    local set=("send $(packet 32 9 0 4 0)" "end $(packet 28 9 0 132 0 0 60 7 5)") read breaks
    read=("@0.5 $(reading 1)" "@1.000000001 $(poll 2 1)" "$(polled 2 1 5)")
    breaks=(wire_breaks 'controller: figure' 'GET COMMAND STATUS 3 of unit 0')
    local is_right=(wire_is_right '7 4 2 3 0' 'outstanding: READ 1 of unit 0')
    "${is_right[@]}" "${set[@]}" "${read[@]}" "@61 $(poll 3 1)" "$(polled 3 1 5)" &&
        "${is_right[@]}" "${set[@]}" "${read[@]}" "@1.0 $(poll 3 1)" "$(polled 3 1 6)" &&
        "${breaks[@]}" "${set[@]}" "${read[@]}" "@61.000000001 $(poll 3 1)" "$(polled 3 1 5)" &&
        "${breaks[@]}" "${set[@]}" "${read[@]}" "@61.1 $(poll 3 1)" "$(polled 3 1 6)" &&
        "${breaks[@]}" "${read[@]}" "@2 $(poll 3 1)" "$(polled 3 1 5)" &&
        "${breaks[@]}" "${set[@]}" "${read[@]}" "$(poll 3 1)" "$(polled 3 1 5)" &&
        "${breaks[@]}" "${set[@]}" "${read[@]/@1.000000001 /}" "@2 $(poll 3 1)" "$(polled 3 1 5)" || return
    wire_is_right '9 5 3 4 0' 'outstanding: READ 1 of unit 0' "${set[@]}" "${read[@]}" "@30 $(poll 3 1)" "$(polled 3 1 2)" \
        "@70 $(poll 4 1)" "$(polled 4 1 4)" &&
        wire_breaks 'controller: figure' 'GET COMMAND STATUS 4 of unit 0' "${set[@]}" "${read[@]}" "@30 $(poll 3 1)" \
            "$(polled 3 1 9)" "@70 $(poll 4 1)" "$(polled 4 1 5)"
}

# The timeout is that which was told last, by either host's command, and none is known once the controller was
# initialised.
told_timeouts() {
    local set="send $(packet 32 9 0 4 0)" read breaks right
    read=("@1 $(reading 1)" "@1 $(poll 2 1)" "$(polled 2 1 5)" "@30 $(poll 3 1)" "$(polled 3 1 5)")
    breaks=(wire_breaks 'controller: figure' 'GET COMMAND STATUS 3 of unit 0') right='outstanding: READ 1 of unit 0'
    "${breaks[@]}" "$set" "end $(packet 28 9 0 132 0 0 0 7 5)" "${read[@]}" &&
        "${breaks[@]}" "$set" "end $(packet 28 9 0 132 0 0 29 7 5)" "${read[@]}" &&
        wire_is_right '7 4 2 3 0' "$right" "$set" "end $(packet 28 9 0 132 0 0 30 7 5)" "${read[@]}" &&
        wire_is_right '7 4 2 3 0' "$right" "second $set" "second end $(packet 28 9 0 132 0 0 60 7 5)" "${read[@]}" &&
        "${breaks[@]}" "$set" "end $(packet 28 9 0 132 0 0 60 7 5)" "$set" "end $(packet 28 9 0 132 0 0 29 7 5)" "${read[@]}" &&
        wire_is_right '9 5 2 4 0' "$right" "$set" "end $(packet 28 9 0 132 0 0 60 7 5)" "$set" "end $(packet 28 9 0 132 3073)" \
            "${read[@]}" &&
        "${breaks[@]}" "$set" "end $(packet 28 9 0 132 0 0 60 7 5)" reset "${read[@]}"
}

# A time has seconds of up to ten digits, and then maybe a point with one to nine. Any other word tells none.
times_of_lines() {
    local set=("send $(packet 32 9 0 4 0)" "end $(packet 28 9 0 132 0 0 60 7 5)") word
    local read=("$(reading 1)" "@4294967290.5 $(poll 2 1)" "$(polled 2 1 5)")
    for word in @4294967290.500000001 @4294967295 @4294967290.9 @0; do
        wire_is_right '7 4 2 3 0' 'outstanding: READ 1 of unit 0' "${set[@]}" "${read[@]}" "$word $(poll 3 1)" "$(polled 3 1 5)" ||
            return
    done
    for word in @ @. @4294967291. @.5 @4294967296 @04294967291 @4294967291.1234567890 @4294967291.5.5 @4294967291,5 @12:30; do
        wire_breaks 'controller: figure' 'GET COMMAND STATUS 3 of unit 0' "${set[@]}" "${read[@]}" "$word $(poll 3 1)" \
            "$(polled 3 1 5)" || return
    done
}

byte_counts() {
    wire_breaks 'controller: byte count' 'READ 1 of unit 0' "$(reading 1)" "$(moved 1 0 512)" &&
        wire_breaks 'controller: byte count' 'READ 1 of unit 0' "$(reading 1)" "$(moved 1 8 1025)" &&
        wire_is_right '2 1 0 1 0' '' "$(reading 1)" "$(moved 1 232 512)"
}

# Those of a COMPARE CONTROLLER DATA are counted if its end tells a number.
compared_bytes() {
    local send end who='COMPARE CONTROLLER DATA 1 of unit 0'
    send="send $(packet 32 1 0 17 0 1024)"
    wire_breaks 'controller: byte count' "$who" "$send" "end $(packet 32 1 0 145 0 512)" &&
        wire_breaks 'controller: byte count' "$who" "$send" "end $(packet 16 1 0 145 7 1025)" || return
    for end in "$(packet 12 1 0 145 0)" "$(packet 15 1 0 145 0)" "$(packet 32 1 0 145 0 1024)" "$(packet 32 1 0 145 7 512)"; do
        wire_is_right '2 1 0 1 0' '' "$send" "end $end" || return
    done
}

# Ends of a unit's ONLINE, SET UNIT CHARACTERISTICS and GET UNIT STATUS: each with an identifier, a media type, and the size
# or what stands in its place.
tells_online() { echo "end $(packet 44 "$1" 5 137 "$2" 0 0 "$3" 7 "$4" 0 "$5" 0)"; }
tells_set() { echo "end $(packet 44 "$1" 5 138 "$2" 0 0 "$3" 7 "$4" 0 "$5" 0)"; }
tells_status() { echo "end $(packet 48 "$1" 5 131 "$2" 0 0 "$3" 7 "$4" 0 "$5")"; }

identities() {
    local online=("$(online 1 5)" "$(tells_online 1 0 3 4 800)") set asks
    set="send $(packet 36 2 5 10 0)" asks=$(unit_status 2 5 0)
    wire_breaks 'controller: identity' 'ONLINE 2 of unit 5' "${online[@]}" "$(online 2 5)" "$(tells_online 2 256 3 5 800)" &&
        wire_breaks 'controller: identity' 'GET UNIT STATUS 2 of unit 5' "${online[@]}" "$asks" "$(tells_status 2 0 2 4 0)" &&
        wire_is_right '6 3 0 3 0' '' "${online[@]}" "$set" "$(tells_set 2 0 3 4 800)" "$asks" "$(tells_status 2 0 3 4 9)" &&
        wire_is_right '4 2 0 2 0' '' "${online[@]}" "$set" "$(tells_set 2 1 0 0 0)"
}

# A GET UNIT STATUS tells it too, but no size, and so does a SET UNIT CHARACTERISTICS to what comes behind it. Its own may be
# another one: the unit may have become available, and have another volume. That is a doubt.
identities_by_others() {
    local set asks told
    set="send $(packet 36 2 5 10 0)" asks=$(unit_status 3 5 0)
    told=("$(unit_status 1 5 0)" "$(tells_status 1 0 3 4 0)")
    wire_breaks 'controller: identity' 'GET UNIT STATUS 3 of unit 5' "${told[@]}" "$asks" "$(tells_status 3 0 3 5 0)" &&
        wire_is_right '4 2 0 2 0' 'doubt: 1 identity, first in line 4: SET UNIT CHARACTERISTICS 2 of unit 5' "${told[@]}" "$set" \
            "$(tells_set 2 0 2 4 800)" &&
        wire_is_right '6 3 0 3 0' 'doubt: 1 identity, first in line 4: SET UNIT CHARACTERISTICS 2 of unit 5' "$(online 1 5)" \
            "$(tells_online 1 0 3 4 800)" "$set" "$(tells_set 2 0 3 4 801)" "$(online 4 5)" "$(tells_online 4 0 3 4 801)" &&
        wire_breaks 'controller: identity' 'GET UNIT STATUS 3 of unit 5' "$(online 1 5)" "$(tells_online 1 0 3 4 800)" "$set" \
            "$(tells_set 2 0 9 4 800)" "$asks" "$(tells_status 3 0 9 4 0)" &&
        wire_breaks 'controller: identity' 'ONLINE 4 of unit 5' "${told[@]}" "$(online 4 5)" "$(tells_online 4 256 2 4 800)" &&
        wire_is_right '4 2 0 2 0' '' "${told[@]}" "$set" "$(tells_set 2 0 3 4 800)" &&
        wire_is_right '4 2 0 2 0' '' "${told[@]}" "$(online 4 5)" "$(tells_online 4 0 9 9 9)" &&
        wire_breaks 'controller: identity' 'GET UNIT STATUS 3 of unit 5' "$set" "$(tells_set 2 0 3 4 800)" "$asks" \
            "$(tells_status 3 0 3 5 0)" &&
        wire_breaks 'controller: identity' 'ONLINE 4 of unit 5' "$set" "$(tells_set 2 0 3 4 800)" "$(online 4 5)" \
            "$(tells_online 4 256 3 4 801)" &&
        wire_is_right '4 2 0 2 0' 'doubt: 1 identity, first in line 4: SET UNIT CHARACTERISTICS 2 of unit 5' "$set" \
            "$(tells_set 2 0 3 4 800)" "$set" "$(tells_set 2 0 9 9 9)" &&
        wire_is_right '8 4 0 4 0' 'doubt: 1 identity, first in line 4: SET UNIT CHARACTERISTICS 2 of unit 5' "$set" "$(tells_set 2 0 3 4 800)" "$set" "$(tells_set 2 0 9 9 9)" "$asks" \
            "$(tells_status 3 0 9 9 0)" "$set" "$(tells_set 2 0 9 9 1)" &&
        wire_is_right '5 3 0 2 0' 'outstanding: second ONLINE 4 of unit 5' "second $(online 4 5)" "${told[@]}" "$asks" \
            "$(tells_status 3 0 9 9 0)"
}

# Where a unit isn't online any more, or to another host, it may be another.
identities_end() {
    local online=("$(online 1 5)" "$(tells_online 1 0 3 4 800)") other=("$(online 2 5)" "$(tells_online 2 256 9 9 9)")
    local set=("send $(packet 36 2 5 10 0)" "$(tells_set 2 0 9 9 9)")
    wire_is_right '6 3 0 3 0' '' "${online[@]}" "$(available 3 5)" "end $(packet 12 3 5 136 0)" "${set[@]}" &&
        wire_is_right '6 3 0 3 0' '' "${online[@]}" "$(reading 3 5)" "$(moved 3 3 0 5)" "${set[@]}" &&
        wire_is_right '6 3 0 3 0' '' "${online[@]}" "$(reading 3 5)" "$(moved 3 4 0 5)" "${set[@]}" &&
        wire_is_right '5 2 0 2 1' '' "${online[@]}" reset "${set[@]}" &&
        wire_is_right '4 2 0 2 0' '' "${online[@]}" "${other[0]}" "$(tells_online 2 0 9 9 9)" &&
        wire_is_right '4 2 0 2 0' '' "${online[@]}" "${other[0]}" "$(tells_online 2 1024 9 9 9)" &&
        wire_is_right '4 2 0 2 0' '' "${online[@]}" "${other[0]}" "$(tells_online 2 128 9 9 9)" &&
        wire_breaks 'controller: identity' 'ONLINE 2 of unit 5' "${online[@]}" "${other[0]}" "$(tells_online 2 1280 9 9 9)" &&
        wire_is_right '6 3 0 3 0' '' "${online[@]}" "second ${other[0]}" "second $(tells_online 2 0 9 9 9)" \
            "$(unit_status 3 5 0)" "$(tells_status 3 0 9 9 0)" &&
        wire_breaks 'controller: identity' 'GET UNIT STATUS 3 of unit 5' "${online[@]}" "second ${other[0]}" \
            "second $(tells_online 2 256 9 9 9)" "$(unit_status 3 5 0)" "$(tells_status 3 0 9 9 0)" &&
        wire_is_right '4 2 0 2 0' '' "${online[@]}" "second ${other[0]}" "second ${other[1]}" &&
        wire_breaks 'controller: identity' 'ONLINE 2 of unit 5' "${online[@]}" "$(available 3 5)" \
            "end $(packet 12 3 5 136 1)" "${other[@]}"
}

# The lines are right, and just these doubts are told of them.
doubts_are() {
    printf '%s\n' "${@:2}" >"$room/log"
    "$program" wire "$room/log" </dev/null >"$room/out" 2>"$room/err" && cmp -- "$room/err" /dev/null &&
        [ "$(head -n 1 "$room/out")" = right ] && cmp -- <(grep ^doubt "$room/out") <(printf '%s' "${1:+$1$'\n'}")
}

# Two SET UNIT CHARACTERISTICS tell two identifiers, media types or sizes, each further one of which is counted. They do
# not if one failed, or if the unit went away between, by what either host was told.
doubted_identities() {
    local other set="send $(packet 36 2 5 10 0)" gone=("$(available 3 5)" "end $(packet 12 3 5 136 0)")
    local first=("$set" "$(tells_set 2 0 3 4 800)")
    for other in '9 4 800' '3 9 800' '3 4 9'; do
        # shellcheck disable=SC2086 # three numbers
        doubts_are 'doubt: 1 identity, first in line 4: SET UNIT CHARACTERISTICS 2 of unit 5' "${first[@]}" "$set" \
            "$(tells_set 2 0 $other)" || return
    done
    doubts_are 'doubt: 2 identity, first in line 5: SET UNIT CHARACTERISTICS 2 of unit 5' '# one' "${first[@]}" "$set" \
        "$(tells_set 2 0 9 4 800)" "${first[@]}" && doubts_are '' "${first[@]}" "${first[@]}" &&
        doubts_are '' "${first[@]}" "$set" "$(tells_set 2 1 9 4 800)" &&
        doubts_are '' "${first[@]}" "${gone[@]}" "$set" "$(tells_set 2 0 9 4 800)" &&
        doubts_are '' "${first[@]}" "second ${gone[0]}" "second ${gone[1]}" "$set" "$(tells_set 2 0 9 4 800)" &&
        doubts_are '' "${first[@]}" reset "$set" "$(tells_set 2 0 9 4 800)"
}

# A READ of so many bytes from a block of unit 5 on, which ends with this status.
read_from() {
    echo "send $(packet 32 9 5 33 0 "$1" 0 0 0 "$2")"
    echo "end $(packet 32 9 5 161 "$3" "$1")"
}

# Unit 5 has 800 blocks, and is told to have 20 behind them: 10 in each of 2 copies. If that isn't told there may be 65535
# in each of 255.
doubted_sizes() {
    local all=$((65535 * 255)) up=("$(online 1 5)" "$(tells_online 1 0 3 4 800)") table=("$(unit_status 2 5 0)")
    local doubt='doubt: 1 size, first in line 6: READ 9 of unit 5'
    table+=("end $(packet 48 2 5 131 0 0 0 3 7 4 0 0 0 $((10 + (2 << 24))))")
    doubts_are '' "${up[@]}" "${table[@]}" "$(read_from 512 819 0)" &&
        doubts_are "$doubt" "${up[@]}" "${table[@]}" "$(read_from 512 820 0)" &&
        doubts_are "$doubt" "${up[@]}" "${table[@]}" "$(read_from 513 819 0)" &&
        doubts_are '' "${up[@]}" "${table[@]}" "$(read_from 512 820 8)" &&
        doubts_are '' "${table[@]}" "$(read_from 512 820 0)" &&
        doubts_are '' "${up[@]}" "$(read_from 512 $((799 + all)) 0)" &&
        doubts_are "${doubt/6/4}" "${up[@]}" "$(read_from 512 $((800 + all)) 0)" &&
        doubts_are '' "${up[@]}" "${table[@]}" "${up[@]}" "$(read_from 512 820 0)" &&
        doubts_are '' "second ${up[0]}" "${up[@]}" "${table[@]}" "$(read_from 512 820 0)" &&
        doubts_are '' "${up[@]}" "${table[@]}" "second $(unit_status 2 5 0)" "second ${table[1]}" "$(read_from 512 820 0)" &&
        doubts_are "$doubt" "send $(packet 36 2 5 10 0)" "$(tells_set 2 0 3 4 800)" "${table[@]}" "$(read_from 512 820 0)"
}

# Each of these is a command, its modifiers and the code of a status that it has no use for, and then of one that it has.
doubted_statuses() {
    local opcode modifiers code name
    while read -r opcode modifiers code name; do
        doubts_are "doubt: 1 status, first in line 2: $name 1 of unit 0" \
            "send $(packet 36 1 0 "$opcode" "$modifiers" 512)" "end $(packet 44 1 0 $((opcode + 128)) "$code" 0)" || return
    done <<-END
		33 0 6 READ
		16 0 6 ACCESS
		32 0 6 COMPARE HOST DATA
		33 0 7 READ
		34 8192 7 WRITE
		18 0 7 ERASE
		9 16384 7 ONLINE
		16 0 9 ACCESS
		18 0 9 ERASE
		9 0 9 ONLINE
		10 0 9 SET UNIT CHARACTERISTICS
		8 0 5 AVAILABLE
		8 0 6 AVAILABLE
		8 0 7 AVAILABLE
		8 0 8 AVAILABLE
		8 0 9 AVAILABLE
	END
    while read -r opcode modifiers code; do
        doubts_are '' "send $(packet 36 1 0 "$opcode" "$modifiers" 512)" \
            "end $(packet 44 1 0 $((opcode + 128)) "$code" 0)" || return
    done <<-END
		34 0 6
		18 0 6
		32 0 7
		33 16384 7
		34 49152 7
		33 0 9
		34 0 9
		32 0 9
		33 0 8
		33 0 11
		8 0 3
		8 0 10
		19 0 7
		9 0 5
	END
    doubts_are '' "send $(packet 32 1 0 16 0 512)" "end $(packet 32 1 0 128 1)" &&
        doubts_are 'doubt: 2 status, first in line 4: second READ 1 of unit 0' "$(reading 1)" "second $(reading 1)" \
            "$(moved 1 0 1024)" "second $(moved 1 6 0)" "$(reading 1)" "$(moved 1 7 0)"
}

# A WRITE, or the command of another opcode, of unit 5 that ends with this status.
write_ends() {
    echo "send $(packet 32 9 5 "${2-34}" 0 512)"
    echo "end $(packet 32 9 5 $((${2-34} + 128)) "$1" 512)"
}

# The flags behind the reference number say that unit 5 is protected by software or by a switch.
doubted_protection() {
    local flags away doubt='doubt: 1 protection, first in line 4: WRITE 9 of unit 5'
    local up=("$(online 1 5)") free
    free=("${up[0]}" "end $(packet 44 1 5 137 256 $((0xCFFF << 16)) 0 3 0 7)")
    for flags in 0x1000 0x2000 0x3080; do
        up[1]="end $(packet 44 1 5 137 0 $((flags << 16)) 0 3 0 7)"
        doubts_are "$doubt" "${up[@]}" "$(write_ends 0)" && doubts_are '' "${up[@]}" "$(write_ends 6)" &&
            doubts_are "${doubt/WRITE/ERASE}" "${up[@]}" "$(write_ends 0 18)" &&
            doubts_are '' "${up[@]}" "$(write_ends 0 33)" && doubts_are '' "${up[@]}" "${free[@]}" "$(write_ends 0)" &&
            doubts_are '' "${up[@]}" "$(available 3 5)" "end $(packet 12 3 5 136 512)" "$(write_ends 0)" || return
    done
    doubts_are '' "${free[@]}" "$(write_ends 0)" &&
        doubts_are '' "${up[@]}" "second send $(packet 36 2 5 10 0)" "second $(tells_set 2 0 3 0 7)" "$(write_ends 0)" &&
        doubts_are '' "second ${up[0]}" "${up[@]}" "$(write_ends 0)" &&
        doubts_are "${doubt/4/6}" "${free[@]}" "${up[@]}" "$(write_ends 0)" &&
        doubts_are "${doubt/4/6}" "${free[@]}" "send $(packet 36 2 5 10 0)" \
            "end $(packet 44 2 5 138 0 $((0x1000 << 16)) 0 3 0 7)" "$(write_ends 0)"
}

# Units 5 and 6 come online with one identifier, as low and high words. They may have it one after the other.
doubted_identifiers() {
    local five=("$(online 1 5)" "$(tells_online 1 0 3 4 800)") six=("$(online 2 6)") other
    local doubt='doubt: 1 identifier, first in line 4: ONLINE 2 of unit 6'
    six+=("end $(packet 44 2 6 137 0 0 0 3 7 4 0 900)")
    other="end $(packet 44 2 6 137 0 0 0 3 8 4 0 900)"
    doubts_are "$doubt" "${five[@]}" "${six[@]}" && doubts_are '' "${five[@]}" "${six[0]}" "$other" &&
        doubts_are '' "${five[@]}" "${five[@]}" &&
        doubts_are "${doubt/: ONLINE/: second ONLINE}" "${five[@]}" "second ${six[0]}" "second ${six[1]}" &&
        doubts_are "${doubt/line 4/line 6}" "${five[@]}" "${six[0]}" "$other" "${six[@]}" &&
        doubts_are '' "${five[@]}" "$(available 3 5)" "end $(packet 12 3 5 136 0)" "${six[@]}" &&
        doubts_are '' "${five[@]}" reset "${six[@]}" &&
        doubts_are '' "${five[@]}" "${five[0]}" "$(tells_online 1 0 9 4 800)" "${six[@]}" &&
        doubts_are '' "${five[@]}" "send $(packet 36 2 6 10 0)" "end $(packet 44 2 6 138 0 0 0 3 7 4 0 900)" &&
        doubts_are 'doubt: 1 identifier, first in line 4: GET UNIT STATUS 2 of unit 6' "${five[@]}" "$(unit_status 2 6 0)" \
            "end $(packet 48 2 6 131 0 0 0 3 7 4)"
}

# Unit 5 was told to be there, and then the next one from it on is told to be unit 6.
doubted_next_units() {
    local there known=("$(online 1 5)" "$(tells_online 1 0 3 4 800)") ask
    local doubt='doubt: 1 next unit, first in line 4: GET UNIT STATUS 2 of unit 5'
    ask=("$(unit_status 2 5 1)" "end $(packet 48 2 6 131 4 0 0 9 7 4)")
    for there in "$(online 1 5)"$'\n'"$(tells_online 1 0 3 4 800)" "$(available 3 5)"$'\n'"end $(packet 12 3 5 136 0)" \
        "$(reading 3 5)"$'\n'"$(moved 3 4 0 5)" "$(unit_status 3 5 0)"$'\n'"$(tells_status 3 4 3 4 0)" \
        "$(unit_status 3 5 1)"$'\n'"$(tells_status 3 0 3 4 0)"; do
        doubts_are "$doubt" "$there" "${ask[@]}" && doubts_are '' "$there" "$(reading 4 5)" "$(moved 4 3 0 5)" "${ask[@]}" &&
            doubts_are '' "$there" "second $(reading 4 5)" "second $(moved 4 3 0 5)" "${ask[@]}" &&
            doubts_are '' "$there" reset "${ask[@]}" && doubts_are '' "second ${there/$'\n'/$'\n'second }" "${ask[@]}" || return
    done
    doubts_are "${doubt}" "${known[@]}" "${ask[0]}" "end $(packet 48 2 6 131 0 0 0 9 7 4)" &&
        doubts_are '' "${ask[@]}" && doubts_are '' "${known[@]}" "$(unit_status 2 6 1)" "${ask[1]}" &&
        doubts_are '' "${known[@]}" "${ask[0]}" "$(tells_status 2 0 3 4 0)" &&
        doubts_are '' "${known[@]}" "${ask[0]}" "end $(packet 48 2 4 131 4 0 0 9 7 4)" &&
        doubts_are '' "${known[@]}" "${ask[0]}" "end $(packet 48 2 6 131 3)" &&
        doubts_are '' "$(reading 3 5)" "$(moved 3 0 1024 5)" "${ask[@]}"
}

# A SET CONTROLLER CHARACTERISTICS that succeeds tells the controller's identifier, of low and high words, to both hosts.
controllers() {
    local set="send $(packet 32 2 0 4 0)" told=("send $(packet 32 1 0 4 0)" "end $(packet 28 1 0 132 0 0 60 7 5)")
    wire_breaks 'controller: controller' 'SET CONTROLLER CHARACTERISTICS 2 of unit 0' "${told[@]}" "$set" \
        "end $(packet 28 2 0 132 0 0 60 8 5)" &&
        wire_breaks 'controller: controller' 'second SET CONTROLLER CHARACTERISTICS 2 of unit 0' "${told[@]}" "second $set" \
            "second end $(packet 28 2 0 132 0 0 60 7 6)" &&
        wire_is_right '4 2 0 2 0' '' "${told[@]}" "$set" "end $(packet 28 2 0 132 0 0 61 7 5)" &&
        wire_is_right '4 2 0 2 0' '' "${told[@]}" "$set" "end $(packet 28 2 0 132 3073)" &&
        wire_is_right '5 2 0 2 1' '' "${told[@]}" reset "$set" "end $(packet 28 2 0 132 0 0 60 8 5)"
}

# A unit isn't online after a reset, or once it is told to be available or offline, until an ONLINE of its host succeeds.
# Nothing is known before.
unit_states() {
    local away up=("$(online 1 5)" "$(tells_online 1 0 3 4 800)") read=("$(reading 9 5)" "$(moved 9 0 1024 5)")
    wire_breaks 'controller: state' 'READ 9 of unit 5' reset "${read[@]}" &&
        wire_breaks 'controller: state' 'ONLINE 1 of unit 5' reset "$(online 1 5)" "$(tells_online 1 256 3 4 800)" &&
        wire_breaks 'controller: state' 'GET UNIT STATUS 1 of unit 5' reset "$(unit_status 1 5 0)" \
            "$(tells_status 1 0 3 4 0)" &&
        wire_breaks 'controller: state' 'WRITE 2 of unit 5' reset "send $(packet 32 2 5 34 0 512)" \
            "end $(packet 32 2 5 162 0 512)" &&
        wire_is_right '5 2 0 2 1' '' reset "${up[@]}" "${read[@]}" &&
        wire_is_right '3 1 0 1 1' '' reset "$(reading 9 5)" "$(moved 9 4 0 5)" &&
        wire_is_right '3 1 0 1 1' '' reset "send $(packet 36 2 5 10 0)" "$(tells_set 2 0 3 4 800)" &&
        wire_breaks 'controller: state' 'READ 9 of unit 5' reset "${up[@]}" reset "${read[@]}" &&
        wire_is_right '5 2 0 2 1' '' reset "$(online 1)" "$(onlined 1 0)" "$(reading 2)" "$(moved 2 0 1024)" &&
        wire_breaks 'controller: state' 'READ 2 of unit 5' reset "$(online 1)" "$(onlined 1 0)" "$(reading 2 5)" \
            "$(moved 2 0 1024 5)" || return
    # Each of these ends says that unit 5 isn't online.
    for away in "$(available 3 5)"$'\n'"end $(packet 12 3 5 136 0)" "$(reading 3 5)"$'\n'"$(moved 3 4 0 5)" \
        "$(reading 3 5)"$'\n'"$(moved 3 3 0 5)" "$(unit_status 3 5 0)"$'\n'"$(tells_status 3 4 3 4 0)"; do
        wire_breaks 'controller: state' 'READ 9 of unit 5' "${up[@]}" "$away" "${read[@]}" &&
            wire_breaks 'controller: state' 'ONLINE 4 of unit 5' "${up[@]}" "$away" "$(online 4 5)" \
                "$(tells_online 4 256 3 4 800)" &&
            wire_is_right '8 4 0 4 0' '' "${up[@]}" "$away" "$(online 4 5)" "$(tells_online 4 0 3 4 800)" "${read[@]}" || return
    done
    wire_is_right '6 3 0 3 0' '' "${up[@]}" "$(available 3 5)" "end $(packet 12 3 5 136 1)" "${read[@]}" &&
        wire_is_right '6 3 0 3 0' '' "${up[@]}" "$(available 3 5)" "end $(packet 12 3 5 136 512)" "${read[@]}" &&
        wire_is_right '6 3 0 3 0' '' "${up[@]}" "send $(packet 12 3 5 47 0)" "end $(packet 12 3 5 175 4)" "${read[@]}" &&
        wire_is_right '6 3 0 3 0' '' "$(online 1)" "$(onlined 1 0)" "$(unit_status 3 7 1)" "end $(packet 48 3 0 131 3)" \
            "$(reading 2)" "$(moved 2 0 1024)"
}

# A GET UNIT STATUS may be answered at any moment between its message and its end: beside an ONLINE or an AVAILABLE of its
# unit it may tell what was before that or after it, and tells nothing of what comes behind.
unit_states_meanwhile() {
    local up=("$(online 1 5)" "$(tells_online 1 0 3 4 800)") read=("$(reading 9 5)" "$(moved 9 0 1024 5)")
    local asks=$(unit_status 3 5 0) there away gone=("$(available 4 5)" "end $(packet 12 4 5 136 0)")
    there=$(tells_status 3 0 3 4 0) away=$(tells_status 3 4 0 0 0)
    wire_is_right '5 2 0 2 1' '' reset "${up[0]}" "$asks" "$there" "${up[1]}" &&
        wire_is_right '7 3 0 3 1' '' reset "${up[0]}" "$asks" "${up[1]}" "$away" "${read[@]}" &&
        wire_is_right '7 3 0 3 1' '' reset "$asks" "${up[@]}" "$away" "${read[@]}" &&
        wire_is_right '6 3 0 3 0' '' "${up[@]}" "$asks" "${gone[@]}" "$there" &&
        wire_is_right '6 3 0 3 0' '' "${up[@]}" "${gone[0]}" "$asks" "${gone[1]}" "$there" &&
        wire_is_right '8 4 0 4 0' '' "${up[@]}" "${read[0]}" "${gone[0]}" "$asks" "$away" "${read[1]}" "${gone[1]}" &&
        wire_is_right '8 4 0 4 0' '' "${up[@]}" "$asks" "${gone[@]}" "$(online 6 5)" "$(tells_online 6 0 9 9 9)" "$there" &&
        wire_breaks 'controller: state' 'GET UNIT STATUS 3 of unit 5' reset "${up[@]}" "${gone[@]}" "$asks" "$there" &&
        wire_breaks 'controller: state' 'READ 9 of unit 5' "${up[@]}" "$asks" "$away" "${read[@]}" || return
    # Of another unit, of the other host, by another command, and beside a GET UNIT STATUS that came later.
    wire_breaks 'controller: state' 'GET UNIT STATUS 3 of unit 5' reset "$(online 1 6)" "$asks" "$there" &&
        wire_breaks 'controller: state' 'GET UNIT STATUS 3 of unit 5' reset "second ${gone[0]}" "$asks" "$there" &&
        wire_breaks 'controller: state' 'GET UNIT STATUS 3 of unit 5' reset "send $(packet 36 2 5 10 0)" "$asks" "$there" &&
        wire_breaks 'controller: state' 'GET UNIT STATUS 7 of unit 5' reset "$asks" "${gone[@]}" "$(unit_status 7 5 0)" \
            "${there/03000000/07000000}" || return
    # One of the next unit is beside what its end names, or what ended meanwhile.
    wire_is_right '4 2 0 1 1' 'outstanding: ONLINE 1 of unit 5' reset "$(unit_status 3 2 1)" "${up[0]}" "$there" &&
        wire_is_right '5 2 0 2 1' '' reset "$(unit_status 3 2 1)" "${gone[@]}" "$there" &&
        wire_breaks 'controller: state' 'GET UNIT STATUS 3 of unit 2' reset "$(online 1 6)" "$(unit_status 3 2 1)" "$there" &&
        wire_breaks 'controller: state' 'GET UNIT STATUS 3 of unit 2' reset "${gone[@]}" "$(unit_status 3 2 1)" "$there"
}

# An end that says that the unit went away by itself may pass others, which were right before that. It proves nothing if
# something else of its host is outstanding; an AVAILABLE that succeeds does, and so does one beside the other host's.
units_that_go_away() {
    local up=("$(online 1 5)" "$(tells_online 1 0 3 4 800)") read=("$(reading 9 5)" "$(moved 9 0 1024 5)") went there away
    local asks=$(unit_status 3 5 0) set="send $(packet 36 2 5 10 0)" gone=("$(available 4 5)" "end $(packet 12 4 5 136 0)")
    there=$(tells_status 3 0 3 4 0) away=$(tells_status 3 4 0 0 0)
    for went in 3 35 4; do
        wire_is_right '7 3 0 3 1' '' reset "${up[@]}" "$asks" "${read[0]}" "$(moved 9 $went 0 5)" "$there" &&
            wire_is_right '7 3 0 3 1' '' reset "${up[@]}" "$asks" "$set" "$(tells_set 2 $went 0 0 0)" "$there" &&
            wire_is_right '7 3 0 3 1' '' reset "${up[@]}" "${read[0]}" "$(reading 8 5)" "$(moved 8 $went 0 5)" "${read[1]}" || return
    done
    wire_is_right '7 3 0 3 1' '' reset "${up[@]}" "${read[0]}" "$asks" "$away" "${read[1]}" &&
        wire_breaks 'controller: state' 'READ 9 of unit 5' "${up[@]}" "second $(reading 7 6)" "$(reading 8 5)" "$(moved 8 3 0 5)" "${read[@]}" &&
        wire_breaks 'controller: state' 'READ 9 of unit 5' "${up[@]}" "$(reading 7 6)" "${gone[@]}" "${read[@]}"
}

# If the other host brings the unit online, its end may be told late.
units_of_two_hosts() {
    local read=("second $(reading 9 5)" "second $(moved 9 0 1024 5)")
    wire_is_right '4 2 0 1 1' 'outstanding: ONLINE 1 of unit 5' reset "$(online 1 5)" "${read[@]}" &&
        wire_is_right '6 3 0 2 1' 'outstanding: ONLINE 1 of unit 5' reset "$(online 1 5)" "second $(available 2 5)" \
            "second end $(packet 12 2 5 136 0)" "${read[@]}" &&
        wire_breaks 'controller: state' 'second READ 9 of unit 5' reset "$(online 1 6)" "${read[@]}" &&
        wire_breaks 'controller: state' 'second READ 9 of unit 5' reset "$(available 1 5)" "${read[@]}" &&
        wire_breaks 'controller: state' 'READ 9 of unit 5' reset "$(online 1 5)" reset "$(reading 9 5)" "$(moved 9 0 1024 5)"
}

# The lines are no log of the wire, for this reason.
wire_refuses() {
    local status
    printf '%s\n' "${@:2}" >"$room/log"
    "$program" wire "$room/log" </dev/null >"$room/out" 2>"$room/err"
    status=$?
    [ "$status" = 1 ] && cmp -- "$room/out" /dev/null && fault_is_explained "$1" "$room/log" limit_on_wire
}

no_log_of_the_wire() {
    wire_refuses 'line 1: word' 'read 1 0 512 0' && wire_refuses 'line 2: word' '' 'second begun' &&
        wire_refuses 'line 1: count' second && wire_refuses 'line 1: count' send && wire_refuses 'line 1: count' 'reset 1' &&
        wire_refuses 'line 1: count' 'end 00 00' && wire_refuses 'line 1: hex' 'send 0' && wire_refuses 'line 1: hex' 'send 0x' &&
        wire_refuses 'line 1: hex' "send $(packet 65 1 0 33 0)" && wire_refuses 'line 1: number' 'credits -1' &&
        wire_refuses 'line 2: word' 'credits 4' 'credits 4' && wire_refuses 'line 2: word' reset 'credits 4' &&
        wire_refuses 'line 1: byte' $'reset\t' && wire_refuses 'line 2: count' "$(reading 1)" '@1 send'
}

# A line of this word with a whole packet: its envelope tells a length, a type, credits and a connection, and this is behind.
whole() { echo "$1 $(low_first "$2" 2)$(printf '%x%x%02x' "$3" "$4" "$5")$6"; }

# Of whole packets those of other types or connections are passed over, and what stands behind a message, too.
whole_packets() {
    local online up poll abort
    read -r _ online <<<"$(online 1)"
    read -r _ up <<<"$(onlined 1 0)"
    read -r _ poll <<<"$(poll 4 2)"
    read -r _ abort <<<"$(abort 4 1)"
    wire_is_right '2 1 0 1 0' '' "$(whole from 12 0 0 0 "$online")" "$(whole to 44 0 3 0 "$up")" &&
        wire_is_right '2 1 0 1 0' '' "$(whole 'second from' 12 0 0 0 "$online")" "$(whole 'second to' 44 0 15 0 "$up")" &&
        wire_is_right '2 1 0 1 0' '' "$(online 1)" "@7.5 $(whole to 44 0 1 0 "${up}2a2a")" &&
        wire_is_right '1 1 0 0 0' 'outstanding: ONLINE 1 of unit 0' "$(whole from 12 0 0 0 "$online$up")" &&
        wire_is_right '1 1 0 0 0' 'outstanding: ONLINE 1 of unit 0' "$(online 1)" "$(whole from 16 0 0 2 "$abort")" \
            "$(whole to 12 1 0 0 "$online")" "$(whole to 0 2 4 0 '')" "$(whole to 99 0 0 1 '')" &&
        wire_is_right '1 1 0 0 0' 'outstanding: ONLINE 1 of unit 0' "$(online 1)" "$(whole to 12 0 0 0 "$(packet 12 0 0 64 0)")" &&
        wire_breaks 'host: message' '' "$(whole from 11 0 0 0 "$poll")" &&
        wire_breaks 'controller: length' '' "$(whole from 12 0 0 0 "$online")" "$(whole to 43 0 0 0 "$up")" || return
    wire_refuses 'line 1: hex' "$(whole from 13 0 0 0 "$online")" && wire_refuses 'line 1: hex' "$(whole to 0 0 0 0 "$up")" &&
        wire_refuses 'line 1: hex' 'to 0c0000' && wire_refuses 'line 1: hex' 'from 0c00000' && wire_refuses 'line 1: hex' 'to 0c0000xx' &&
        wire_refuses 'line 1: hex' "$(whole from 65 0 0 0 "$(packet 65 1 0 33 0)")" && wire_refuses 'line 1: count' from &&
        wire_refuses 'line 1: count' "$(whole to 12 0 0 0 "$online") 00" && wire_refuses 'line 1: word' "From ${online}"
}

# So a log says the same as that of its packets. The first end after a reset gives fourteen credits, as SIMH's does, and each
# other one its own back.
whole_packets_say_the_same() {
    local log line time word digits more
    for log in examples/*.wire; do
        more=14
        while IFS= read -r line; do
            time=
            [[ $line != @* ]] || time="${line%% *} "
            read -r word digits <<<"${line#"$time"}"
            case $word in
                send) whole "${time}from" $((${#digits} / 2)) 0 0 0 "$digits" ;;
                end) whole "${time}to" $((${#digits} / 2)) 0 "$more" 0 "$digits" && more=1 ;;
                *) printf '%s\n' "$line" ;;
            esac
            [ "$word" != reset ] || more=14
        done <"$log" >"$room/whole"
        "$program" wire "$log" >"$room/out"
        "$program" wire "$room/whole" | cmp -- - "$room/out" || return
        [ "$log" != examples/captured.wire ] || ! cmp -s -- "$log" "$room/whole" || return
    done
}

# The log in words is this, by its name and on standard input.
shows() {
    "$program" wire --show "$room/log" </dev/null >"$room/out" 2>"$room/err" && cmp -- "$room/out" - &&
        cmp -- "$room/err" /dev/null && "$program" wire --show <"$room/log" | cmp -- - "$room/out"
}

# Whether it is right isn't asked.
wire_in_words() {
    printf '%s\n' 'credits 4' '# comes up' "@0.5 $(online 1 5)" "$(tells_online 1 0 3 4 800)" '' "second $(reading 7 1)" \
        "second $(poll 8 7)" "second $(polled 8 7 3)" "second $(moved 9 3 0 1)" reset >"$room/log" && shows <<'END'
line 1: credits 4
line 3 at 0.5: host: command 1 unit 5 ONLINE
line 4: controller: end 1 unit 5 code 89 status 0000 id 30064771075 media 4 size 800 serial 0
line 6: second host: command 7 unit 1 READ bytes 1024 block 0
line 7: second host: command 8 unit 0 GET COMMAND STATUS of 7
line 8: second controller: end 8 unit 0 code 82 status 0000 of 7 figure 3
line 9: second controller: end 9 unit 1 code a1 status 0003 bytes 0
line 10: reset
END
}

# What is no packet is told by the word of its fault and its digits.
wire_in_words_of_any_bytes() {
    printf '%s\n' 'send 00' "end $(packet 12 1 0 161 0)" "end $(packet 12 1 0 255 0)" >"$room/log" && shows <<'END' || return
line 1: host: short: 00
line 2: controller: length: 0100000000000000a1000000
line 3: controller: code: 0100000000000000ff000000
END
    printf '%s\n' reset 'send 0' >"$room/log"
    "$program" wire --show "$room/log" >"$room/out" 2>"$room/err"
    [ $? = 1 ] && cmp -- "$room/out" /dev/null && fault_is_explained 'line 2: hex' "$room/log" limit_on_wire
}

# Each command that the manual has is called by its name, and so is its end, also if no line of a packet knows it.
wire_in_words_of_other_controllers() {
    local opcode
    for opcode in 11 17 19 20 24 47 21 12; do
        printf '%s\n' "send $(packet 12 $opcode 7 $opcode 0)" "end $(packet 12 $opcode 7 $((opcode + 128)) 3)"
    done >"$room/log"
    printf '%s\n' "send $(packet 64 4294967295 65535 19 0)" "end $(packet 64 4294967295 65535 147 65535)" \
        'send 0100000000000000130000' >>"$room/log"
    shows <<'END'
line 1: host: command 11 unit 7 DETERMINE ACCESS PATHS
line 2: controller: end 11 unit 7 code 8b status 0003 DETERMINE ACCESS PATHS
line 3: host: command 17 unit 7 COMPARE CONTROLLER DATA
line 4: controller: end 17 unit 7 code 91 status 0003 COMPARE CONTROLLER DATA
line 5: host: command 19 unit 7 FLUSH
line 6: controller: end 19 unit 7 code 93 status 0003 FLUSH
line 7: host: command 20 unit 7 REPLACE
line 8: controller: end 20 unit 7 code 94 status 0003 REPLACE
line 9: host: command 24 unit 7 FORMAT
line 10: controller: end 24 unit 7 code 98 status 0003 FORMAT
line 11: host: command 47 unit 7 FORMAT
line 12: controller: end 47 unit 7 code af status 0003 FORMAT
line 13: host: command 21 unit 7 unknown opcode 21
line 14: controller: code: 150000000700000095000300
line 15: host: command 12 unit 7 unknown opcode 12
line 16: controller: code: 0c000000070000008c000300
line 17: host: command 4294967295 unit 65535 FLUSH
line 18: controller: end 4294967295 unit 65535 code 93 status ffff FLUSH
line 19: host: short: 0100000000000000130000
END
}

wire_without_lines() {
    wire_is_right '0 0 0 0 0' '' && printf 'reset\r\nreset' >"$room/log" &&
        "$program" wire "$room/log" </dev/null | cmp -- - <(printf 'right\nmoments 2 messages 0 polls 0 ends 0 resets 2 queue 0\n')
}

many_lines_of_the_wire() {
    { yes "$(reading 1; moved 1 0 1024)" | head -n 200000; } >"$room/log" && "$program" wire "$room/log" </dev/null |
        cmp -- - <(printf 'right\nmoments 200000 messages 100000 polls 0 ends 100000 resets 0 queue 1\nsent: 100000 READ (33)\nended: 100000 Success (0)\n')
}

# What goes over the wire of a run: its script joined with its report. A message that is refused doesn't, and a poll or a take
# that finds nothing tells nothing.
wire_of() {
    join_log "$1" "${1%.mscp}.out" | tr -d '\r' | awk '
        function low(number, count, text) {
            for (; count > 0; count--) {
                text = text sprintf("%02x", number % 256)
                number = int(number / 256)
            }
            return text
        }
        function head(opcode, reference, unit) { return low(reference, 4) low(unit, 2) "0000" low(opcode, 1) "000000" }
        BEGIN {
            split("access 16 erase 18 compare 32 read 33 write 34 online 9 available 8 setunit 10 unitstatus 3 setcontroller 4 " \
                "abort 1 status 2", table)
            for (i = 1; i in table; i += 2) opcode[table[i]] = table[i + 1]
        }
        !gone { gone = $1 == "go"; next }
        { second = sub(/^second /, "") ? "second " : "" }
        $1 == "packet" { message = second "send " $2 }
        $1 in opcode {
            message = second "send "
            if (NF == 5) message = message head(opcode[$1], $2, $3) low($4, 4) low(0, 8) low(0, 4) low($5, 4)
            else if (NF == 2) message = message head(opcode[$1], $2, 0) low(0, 6)
            else if (opcode[$1] < 3) message = message head(opcode[$1], $2, 0) low($3, 4)
            else message = message head(opcode[$1], $2, $3)
        }
        $1 == "queued" || $1 == "answered" { print message }
        $1 == "end" { print second $0 }'
}

# What goes over the wire of a run keeps the rules, with each of its ends.
run_is_right() {
    local totals
    wire_of "$1" >"$room/log"
    "$program" wire "$room/log" </dev/null >"$room/out" 2>"$room/err" || return
    totals="^right"$'\n'"moments $(wc -l <"$room/log") messages [0-9]+ polls [0-9]+ ends $(grep -cE '^(second )?end ' "${1%.mscp}.out") "
    [[ $(<"$room/out") =~ $totals ]] && ! grep '^doubt: ' "$room/out"
}

# Compiles these files of C to a program that logs what goes over its wire, with the library as one file.
log_the_wire() {
    local to=$1
    shift
    [ -e "$room/mscp.o" ] || "${cc[@]}" -O1 -Iinclude -c portable/mscp.c -o "$room/mscp.o" || return
    "${cc[@]}" -std=c99 -pedantic -Wall -Wextra -Werror -O1 -DLOG_WIRE -Iinclude -Iexamples "$@" "$room/mscp.o" \
        -o "$room/$to"
}

# What was logged keeps the rules, with so many messages at least, and so many resets. Nothing is outstanding.
logged_is_right() {
    "$program" wire "$room/log" </dev/null >"$room/out" 2>"$room/err" && ! grep -qE '^(outstanding|doubt): ' "$room/out" &&
        [[ $(<"$room/out") =~ \ messages\ ([0-9]+)\ .*\ resets\ $2\ queue\  ]] && [ "${BASH_REMATCH[1]}" -ge "$1" ] ||
        { cat -- "$room/out" "$room/err" && return 1; }
}

# The firmware sends two commands, and what else it prints is as ever.
toy_logs_its_wire() {
    log_the_wire toy examples/toy.c examples/port.c || return
    { echo 'block 0 of unit 0 greets the machine' && head -c 32768 /dev/zero; } | head -c 32768 >"$room/image"
    WIRE=$room/log "$room/toy" "$room/image" | diff - examples/toy.out && logged_is_right 2 1 &&
        grep -v '^end ' "$room/log" |
        diff - <(printf '%s\n' reset "send $(packet 32 0 0 9 0)" "send $(packet 32 0 0 33 0 512)")
}

# The emulator's messages and ends are those of its log for `legal`, and nothing else is there.
emulator_logs_its_wire() {
    log_the_wire emulator examples/emulator.c && log_the_wire steps -ULOG_WIRE examples/emulator.c &&
        head -c 32768 /dev/zero >"$room/image" && "$room/emulator" --log "$room/log" "$room/image" >"$room/said" &&
        "$room/steps" --log "$room/legal" "$room/image" | diff - "$room/said" && logged_is_right 1 1 &&
        diff <(echo reset && sed -n 's/^packet /send /p; /^end /p' "$room/legal") "$room/log"
}

# A message that was refused isn't on the wire, and one of the second connection is.
refused_is_not_logged() {
    cat >"$room/sends.c" <<'END'
#include "log.h"
int main(void)
{
    static const uint8_t text[12] = {1};
    struct mscp_sent sent = {0};
    log_send(stdout, MSCP_CONNECTION_FIRST, text, sizeof text, MSCP_NO_CREDIT, &sent);
    log_send(stdout, MSCP_CONNECTION_SECOND, text, sizeof text, MSCP_QUEUED, &sent);
    return 0;
}
END
    log_the_wire sends "$room/sends.c" && "$room/sends" | diff - <(echo "second send $(packet 12 1 0 0 0)")
}

# A program of tests/c, which fails where its port isn't right.
logs_its_wire() { log_the_wire "$1" "tests/c/$1.c" && WIRE=$room/log "$room/$1"; }

# Hosts of random commands, and hosts that send and take while an action is under way and begin anew at times.
random_hosts_are_right() {
    logs_its_wire hosts && logged_is_right 1000 1 && logs_its_wire meanwhile &&
        logged_is_right 1000 "$(grep -cx reset "$room/log")" && grep -qx reset <(sed 1d "$room/log")
}

# Nine hosts, most like the drivers of known systems, each six times, which begin anew amid it. In 24 passes they
# copy 16 groups of blocks by three commands. In words each message and each end is told by what it is.
drivers_are_right() {
    logs_its_wire drivers && logged_is_right $((9 * 6 * 24 * 16 * 3)) $((9 * 6 * 2)) &&
        "$program" wire --show "$room/log" >"$room/out" && ! grep -E 'unknown opcode|: (short|long|code|length): ' "$room/out"
}

# Hosts whose volumes are exchanged: what a SET UNIT CHARACTERISTICS tells may be a doubt.
exchanged_volumes_are_right() {
    logs_its_wire exchanging && "$program" wire "$room/log" </dev/null >"$room/out" 2>"$room/err" ||
        { cat -- "$room/out" "$room/err" && return 1; }
}

# Of so many lines each is shown.
many_lines_of_the_wire_in_words() {
    { yes "$(reading 1; moved 1 0 1024)" | head -n 200000; } >"$room/log" &&
        shows < <(seq 1 2 200000 | awk '{
            print "line " $1 ": host: command 1 unit 0 READ bytes 1024 block 0"
            print "line " $1 + 1 ": controller: end 1 unit 0 code a1 status 0000 bytes 1024"
        }')
}
