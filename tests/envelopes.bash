# Logs of whole packets, for tests/judge: the credits that their envelopes tell.

# A host's packet of this line's message, and the controller's of this line's end, which gives so many credits.
from() { whole "${2-}from" $(((${#1} - 5) / 2)) 0 0 0 "${1#send }"; }
to() { whole "${3-}to" $(((${#1} - 4) / 2)) 0 "$2" 0 "${1#end }"; }

# The first message of a host, and its end.
greeting() { echo "send $(packet 18 "${1-1}" 0 4 0)"; }
greeted() { echo "end $(packet 28 "${1-1}" 0 132 0)"; }

# Each message takes one of those that were given. At first there is one, which any command may take.
credits_of_envelopes() {
    wire_is_right '8 5 2 2 1' $'outstanding: READ 3 of unit 0\noutstanding: GET COMMAND STATUS 4 of unit 0\noutstanding: GET COMMAND STATUS 5 of unit 0' \
        reset "$(from "$(greeting)")" "$(to "$(greeted)" 3)" "$(from "$(online 2)")" "$(to "$(onlined 2 0)" 1)" \
        "$(from "$(reading 3)")" "$(from "$(poll 4 3)")" "$(from "$(poll 5 3)")" &&
        wire_is_right '2 1 0 0 1' 'outstanding: ONLINE 1 of unit 0' reset "$(from "$(online 1)")" &&
        wire_breaks 'host: credits' 'SET CONTROLLER CHARACTERISTICS 2 of unit 0' reset "$(from "$(greeting)")" "$(from "$(greeting 2)")" &&
        wire_breaks 'host: credits' 'ONLINE 2 of unit 0' reset "$(from "$(greeting)")" "$(to "$(greeted)" 0)" "$(from "$(online 2)")" &&
        wire_breaks 'host: credits' 'READ 3 of unit 0' reset "$(from "$(greeting)")" "$(to "$(greeted)" 1)" "$(from "$(online 2)")" \
            "$(from "$(reading 3)")" &&
        wire_breaks 'host: credits' 'GET COMMAND STATUS 4 of unit 0' reset "$(from "$(greeting)")" "$(to "$(greeted)" 2)" \
            "$(from "$(online 2)")" "$(from "$(poll 3 2)")" "$(from "$(poll 4 2)")" &&
        wire_breaks 'host: credits' 'READ 3 of unit 0' reset "$(from "$(greeting)")" "$(to "$(greeted)" 9)" reset "$(from "$(online 2)")" \
            "$(from "$(reading 3)")"
}

# Each packet of the disk's connection gives what its envelope says, an attention message, a datagram and a credit notification
# too; one of another gives nothing, and a host's gives nothing.
credits_of_other_packets() {
    local begin
    begin=$(printf '%s\n' reset "$(from "$(greeting)")" "$(to "$(greeted)" 0)")
    wire_is_right '4 2 0 1 1' 'outstanding: ONLINE 2 of unit 0' "$begin" "$(to "end $(packet 12 0 0 64 0)" 2)" "$(from "$(online 2)")" &&
        wire_is_right '4 2 0 1 1' 'outstanding: ONLINE 2 of unit 0' "$begin" "$(whole to 0 2 2 0 '')" "$(from "$(online 2)")" &&
        wire_is_right '4 2 0 1 1' 'outstanding: ONLINE 2 of unit 0' "$begin" "$(whole to 2 1 2 0 0000)" "$(from "$(online 2)")" &&
        wire_breaks 'host: credits' 'ONLINE 2 of unit 0' "$begin" "$(whole to 0 2 2 2 '')" "$(from "$(online 2)")" &&
        wire_breaks 'host: credits' 'ONLINE 2 of unit 0' "$begin" "$(whole from 0 2 2 0 '')" "$(from "$(online 2)")"
}

# Where an account isn't known nothing is asked: before a reset, and once a packet came without its envelope. Each host has its own.
credits_that_are_not_known() {
    wire_is_right '1 1 0 0 0' 'outstanding: ONLINE 1 of unit 0' "$(from "$(online 1)")" &&
        wire_is_right '3 2 0 0 1' $'outstanding: SET CONTROLLER CHARACTERISTICS 1 of unit 0\noutstanding: ONLINE 2 of unit 0' \
            reset "$(greeting)" "$(from "$(online 2)")" &&
        wire_is_right '4 2 0 1 1' 'outstanding: ONLINE 2 of unit 0' reset "$(from "$(greeting)")" "$(greeted)" "$(from "$(online 2)")" &&
        wire_is_right '4 2 0 1 1' 'outstanding: ONLINE 2 of unit 0' reset "$(from "$(greeting)")" "$(greeted)" "$(online 2)" &&
        wire_breaks 'host: credits' 'READ 3 of unit 0' "$(greeting)" reset "$(from "$(online 2)")" "$(from "$(reading 3)")" &&
        wire_breaks 'host: credits' 'second READ 3 of unit 0' reset "$(from "$(greeting)")" "$(to "$(greeted)" 9)" \
            "$(from "$(online 2)" 'second ')" "$(from "$(reading 3)" 'second ')" &&
        wire_breaks 'host: credits' 'second READ 3 of unit 0' reset "$(greeting)" "$(from "$(online 2)" 'second ')" \
            "$(from "$(reading 3)" 'second ')" &&
        wire_is_right '4 2 0 1 1' 'outstanding: second ONLINE 2 of unit 0' reset "$(from "$(greeting)" 'second ')" \
            "$(to "$(greeted)" 2 'second ')" "$(from "$(online 2)" 'second ')"
}

# The first line that isn't right is told, whichever rule it breaks, and a fault only if no such line stands before it.
credits_beside_other_rules() {
    wire_says 'line 3 at 1.5: not right
rule of the host: credits
command: READ 2 of unit 0
message: opcode 0x21, 32 bytes
credits: 1 since the reset, all spent
manual: a host needs a credit for each command, and keeps the last one for immediate commands' 1 \
        reset "$(from "$(greeting)")" "@1.5 $(from "$(reading 2)")" "$(moved 7 0 1024)" 'send x' || return
    printf '%s\n' reset "$(to "$(greeted)" 1)" "$(from "$(online 2)")" "$(from "$(online 3)")" >"$room/log"
    ! "$program" wire "$room/log" >"$room/out" && [ "$(head -n 1 "$room/out")" = 'line 2: not right' ] &&
        wire_breaks 'host: reference number' 'READ 1 of unit 0' reset "$(from "$(greeting)")" "$(from "$(reading 1)")" &&
        wire_is_at_fault 'line 2: hex' reset 'from xx' "$(from "$(online 2)")"
}

# How many there were since the last reset, with the one that each host has then, of its own connection. Those of a line
# `credits` aren't told so.
credits_that_are_spent() {
    local begin=("$(from "$(greeting)")" "$(to "$(greeted)" 9)" reset "$(from "$(greeting)")" "$(to "$(greeted)" 2)")
    wire_values $'message: opcode 0x02, 16 bytes\ncredits: 3 since the reset, all spent' "${begin[@]}" "$(from "$(online 2)")" \
        "$(from "$(poll 3 2)")" "$(from "$(poll 4 2)")" &&
        wire_values $'message: opcode 0x02, 16 bytes\ncredits: 1 since the reset, all spent' "${begin[@]}" \
            "$(from "$(greeting)" 'second ')" "$(from "$(poll 3 2)" 'second ')" &&
        wire_values 'message: opcode 0x09, 12 bytes' 'credits 1' "$(online 1)" "$(online 2)" || return
    wire_says_all 'line 3: not right
rule of the host: credits
command: ONLINE 2 of unit 0
message: opcode 0x09, 12 bytes
credits: 1 since the reset, all spent
line 6: not right
rule of the host: credits
command: ONLINE 5 of unit 0
message: opcode 0x09, 12 bytes
credits: 2 since the reset, all spent
wrong: 2 credits' 1 reset "$(from "$(online 1)")" "$(from "$(online 2)")" "$(to "$(onlined 1 0)" 1)" "$(from "$(online 4)")" \
        "$(from "$(online 5)")"
}

# What comes behind a message without a credit is judged. It takes none.
all_credits() {
    wire_finds $'4 outstanding\n5 credits\nwrong: 1 credits\nwrong: 1 outstanding' reset "$(from "$(online 1)")" \
        "$(to "$(onlined 1 0)" 0)" "$(to "$(onlined 1 0)" 0)" "$(from "$(online 2)")" &&
        wire_finds $'3 reference number\n4 credits\nwrong: 1 reference number\nwrong: 1 credits' reset "$(from "$(greeting)")" \
            "$(from "$(reading 1)")" "$(from "$(reading 2)")" &&
        wire_finds $'2 message\n4 credits\nwrong: 1 message\nwrong: 1 credits' reset "$(whole from 4 0 0 0 02000000)" \
            "$(from "$(greeting)")" "$(from "$(greeting 3)")"
}

credits_of_each_port() {
    wire_says 'port 0
line 6: not right
rule of the host: credits
command: ONLINE 2 of unit 0
message: opcode 0x09, 12 bytes
credits: 1 since the reset, all spent
manual: a host needs a credit for each command, and keeps the last one for immediate commands
port 1
right
moments 1 messages 0 polls 0 ends 0 resets 1 queue 0' 1 'port 1' reset 'port 0' reset "$(from "$(online 1)")" "$(from "$(online 2)")"
}
