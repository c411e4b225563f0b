# Logs of the wire of several ports, and the times that lines tell, for tests/judge.

# The judge says this of these lines with the flag --all, and ends with this status.
wire_says_all() {
    local status
    printf '%s\n' "${@:3}" >"$room/log"
    "$program" wire --all "$room/log" </dev/null >"$room/out" 2>"$room/err"
    status=$?
    [ "$status" = "$2" ] && cmp -- "$room/out" <(printf '%s\n' "$1") && cmp -- "$room/err" /dev/null
}

# These lines have this fault, whatever is asked of them, and nothing else is said.
wire_is_at_fault() {
    local flag
    printf '%s\n' "${@:2}" >"$room/log"
    for flag in '' --all; do
        "$program" wire $flag "$room/log" </dev/null >"$room/out" 2>"$room/err" # no word, or one
        [ $? = 1 ] && cmp -- "$room/out" /dev/null && fault_is_explained "$1" "$room/log" limit_on_wire || return
    done
}

# What is said of a port that has had one ONLINE, and its end.
port_right() {
    printf 'port %s\nright\nmoments 2 messages 1 polls 0 ends 1 resets 0 queue 1\nsent: 1 ONLINE (9)\nended: 1 Success (0)' "$1"
}

# And of one whose ONLINE has no end.
port_waits() {
    printf 'port %s\nright\nmoments 1 messages 1 polls 0 ends 0 resets 0 queue 1\nsent: 1 ONLINE (9)\noutstanding: ONLINE 1 of unit 0' "$1"
}

# The same number is outstanding at two ports, and a reset is of one alone.
ports_are_judged_alone() {
    wire_says "$(port_right 0; echo; port_right 1)" 0 "$(online 1)" 'port 1' "$(online 1)" 'port 0' "$(onlined 1 0)" 'port 1' \
        "$(onlined 1 0)" &&
        wire_says "$(port_waits 0)"$'\nport 1\nright\nmoments 1 messages 0 polls 0 ends 0 resets 1 queue 0' 0 "$(online 1)" 'port 1' reset
}

# They are told in the order of their numbers. One that is named occurs, and port 0 if something stands before the first name.
ports_in_their_order() {
    wire_says "$(port_waits 2; echo; port_waits 7)" 0 '# two' '' '@3' 'port 7' "$(online 1)" 'port 2' "$(online 1)" &&
        wire_says $'port 3\nright\nmoments 0 messages 0 polls 0 ends 0 resets 0 queue 0' 0 'port 3' &&
        wire_says "$(port_waits 1)" 0 '@0.5  port  1 ' "$(online 1)" && wire_says "$(port_waits 1)" 0 'port 0000000001' "$(online 1)"
}

each_port_has_its_credits() {
    wire_says "$(port_waits 0; echo; port_waits 1)" 0 'credits 4' "$(online 1)" 'port 1' 'credits 2' "$(online 1)" &&
        wire_is_at_fault 'line 5: word' 'port 1' "$(online 1)" 'port 0' '@1 port 1' 'credits 2'
}

# Its lines keep their numbers.
a_wrong_port_is_told() {
    wire_says "$(port_waits 0)"$'\nport 1
line 4: not right
rule of the controller: outstanding
end: endcode 0x89, status 0x0000, command 1 of unit 0, 44 bytes
manual: an end message answers a command that is outstanding, and each once\n'"$(port_waits 5)" 1 "$(online 1)" 'port 1' '' \
        "$(onlined 1 0)" 'port 5' "$(online 1)"
}

all_of_each_port() {
    wire_says_all "port 0
line 1: not right
rule of the host: message
message: 1 bytes
wrong: 1 message
$(port_right 1)
port 2
line 6: not right
rule of the controller: length
end: 1 bytes
length: 1, asked for 12 at least
line 8: not right
rule of the host: message
message: 1 bytes
wrong: 1 message
wrong: 1 length" 1 'send 00' 'port 1' "$(online 1)" "$(onlined 1 0)" 'port 2' 'end 00' '' 'send 00'
}

# In the order of the lines, and up to the first fault.
ports_in_words() {
    printf '%s\n' 'credits 4' '@2 port 7' "$(online 1 5)" 'port 0' reset >"$room/log" && shows <<'END' || return
line 1: credits 4
line 2 at 2.0: port 7
line 3: host: command 1 unit 5 ONLINE
line 4: port 0
line 5: reset
END
    printf '%s\n' 'port 1' 'send 00' 'port 8' 'end zz' >"$room/log"
    "$program" wire --show "$room/log" >"$room/out" 2>"$room/err"
    [ $? = 1 ] && cmp -- "$room/out" /dev/null && fault_is_explained 'line 3: number' "$room/log" limit_on_wire
}

# Those of a word with one number.
faults_of_ports() {
    local line cause
    while IFS='|' read -r line cause; do
        wire_is_at_fault "line 2: $cause" reset "$line" || return
    done <<END
port 8|number
port 4294967296|number
port x|number
port -1|number
port|count
@1 port|count
port 1 2|count
port x y|count
second port 1|word
Port 1|word
ports 1|word
END
}

# By its line, and not by its port.
first_fault_of_all_ports() {
    wire_is_at_fault 'line 4: hex' "$(online 1)" 'port 1' "$(online 1)" 'end zz' 'port 0' 'send' 'port 9' &&
        wire_is_at_fault 'line 3: count' "$(online 1)" 'port 0' 'send' 'port 1' 'end zz' 'port 9' &&
        wire_is_at_fault 'line 3: number' "$(online 1)" 'port 0' 'port 9' 'send' 'port 1' 'end zz'
}

# A port that isn't right before its fault isn't right. With all that is wrong, it is at fault.
fault_behind_a_wrong_port() {
    local log=('end 00' 'port 1' "$(online 1)" 'port 0' 'end zz')
    wire_says $'port 0
line 1: not right
rule of the controller: length
end: 1 bytes
length: 1, asked for 12 at least
manual: an end message is as long as its endcode asks\n'"$(port_waits 1)" 1 "${log[@]}" || return
    "$program" wire --all "$room/log" </dev/null >"$room/out" 2>"$room/err"
    [ $? = 1 ] && cmp -- "$room/out" /dev/null && fault_is_explained 'line 5: hex' "$room/log" limit_on_wire &&
        wire_is_at_fault 'line 6: hex' 'end 00' 'port 1' "$(online 1)" 'port 0' 'port 1' 'end zz'
}

# One carriage return at the end of a line is dropped, and no second one; a line that is too long is its own port's.
lines_of_other_ports() {
    printf '%s\r\n' "$(online 1)" 'port 1' "$(online 1)" >"$room/log" &&
        "$program" wire "$room/log" </dev/null | cmp -- - <(port_waits 0; echo; port_waits 1; echo) || return
    printf 'port 1\n%s\r\r\n' "$(online 1)" >"$room/log"
    "$program" wire "$room/log" </dev/null >"$room/out" 2>"$room/err"
    [ $? = 1 ] && cmp -- "$room/out" /dev/null && [ "$(head -n 1 "$room/err")" = 'line 2: byte' ] || return
    wire_is_at_fault 'line 3: long' "$(online 1)" 'port 1' "$(printf '%0201d' 0)" 'port 0' "$(onlined 1 0)"
}

# A line too many is a fault of each port, though it has few of its own, unless a moment before it isn't right there.
too_many_lines_of_ports() {
    local wrong='line 2: not right
rule of the controller: length
end: 1 bytes
length: 1, asked for 12 at least
manual: an end message is as long as its endcode asks'
    { printf '%s\n' 'port 3' "$(online 1)" && yes '' | head -n 999998; } >"$room/log"
    "$program" wire "$room/log" </dev/null | cmp -- - <(port_waits 3; echo) || return
    echo reset >>"$room/log"
    "$program" wire "$room/log" </dev/null >"$room/out" 2>"$room/err"
    [ $? = 1 ] && cmp -- "$room/out" /dev/null && fault_is_explained 'line 1000001: lines' "$room/log" limit_on_wire || return
    { printf '%s\n' 'port 3' 'end 00' 'port 5' 'end 00' && yes '' | head -n 999997; } >"$room/log"
    "$program" wire "$room/log" </dev/null | cmp -- - <(printf 'port 3\n%s\nport 5\n%s\n' "$wrong" "${wrong/line 2/line 4}") || return
    "$program" wire --all "$room/log" </dev/null >"$room/out" 2>"$room/err"
    [ $? = 1 ] && cmp -- "$room/out" /dev/null && fault_is_explained 'line 1000001: lines' "$room/log" limit_on_wire
}

# What an end that is too short should have.
lengths_of_ends() {
    wire_values $'end: endcode 0x82, status 0x0000, command 3 of unit 0, 16 bytes\nlength: 16, asked for 20 at least' \
        "$(reading 1)" "$(poll 3 1)" "end $(packet 16 3 0 130 0 1)" &&
        wire_values $'end: endcode 0xa1, status 0x0000, command 1 of unit 0, 28 bytes\nlength: 28, asked for 32 at least' \
            "$(reading 1)" "end $(packet 28 1 0 161 0 1024)"
}

# The reference number isn't read as the opcode.
unnamed_opcodes() {
    wire_is_right '2 2 0 0 0' $'outstanding: command 3 of unit 0 (unknown opcode 77)
outstanding: second command 4 of unit 2 (unknown opcode 255)' "send $(packet 12 3 0 77 0)" "second send $(packet 12 4 2 255 0)" &&
        wire_breaks 'controller: unit' 'command 3 of unit 0 (unknown opcode 48)' "send $(packet 12 3 0 48 0)" \
            "end $(packet 12 3 1 176 0)"
}

# Of the line that isn't right, and of those that it is compared with, each if it tells one.
times_stand_beside_lines() {
    wire_says 'line 5 at 0.013: not right
rule of the controller: figure
command: GET COMMAND STATUS 3 of unit 0
end: endcode 0x82, status 0x0000, command 3 of unit 0, 20 bytes
figure of command 1: 20, the last was 20
sent in line 4 at 0.0125
the last was told in line 3
manual: the status of the oldest command falls from poll to poll, and is 0 of one that isn'"'"'t outstanding' 1 \
        "@0 $(reading 1)" "@0.001 $(poll 2 1)" "$(polled 2 1 20)" "@0.0125 $(poll 3 1)" "@0.013 $(polled 3 1 20)" &&
        wire_says 'line 2: not right
rule of the host: reference number
command: READ 1 of unit 0
message: opcode 0x21, 32 bytes
the other was sent in line 1 at 12.0
manual: no outstanding command of a host has the reference number of another' 1 "@12 $(reading 1)" "$(reading 1)"
}

times_of_all_that_is_wrong() {
    wire_says_all 'port 1
line 3 at 0.3: not right
rule of the controller: byte count
command: READ 1 of unit 0
end: endcode 0xa1, status 0x0000, command 1 of unit 0, 32 bytes
bytes: 512, asked for 1024
sent in line 2 at 0.2
line 6: not right
rule of the controller: byte count
command: READ 1 of unit 0
end: endcode 0xa1, status 0x0000, command 1 of unit 0, 32 bytes
bytes: 256, asked for 1024
sent in line 5 at 0.5
wrong: 2 byte count' 1 '@0.1 port 1' "@0.2 $(reading 1)" "@0.3 $(moved 1 0 512)" '@0.4' "@0.5 $(reading 1)" "$(moved 1 0 256)"
}

# In seconds, with as many digits behind the point as are needed, and one at least. A word that is no time tells none.
times_as_they_are_written() {
    local word time
    while read -r word time; do
        printf '%s reset\n' "$word" >"$room/log" && shows <<<"line 1${time:+ at $time}: reset" || return
    done <<'END'
@0 0.0
@7 7.0
@007.100 7.1
@0.01 0.01
@0.000000001 0.000000001
@1.000000010 1.00000001
@4294967295.999999999 4294967295.999999999
@12.345678 12.345678
@x
@1.
@1.0000000001
END
}

# The lines behind the totals of a log that is right.
wire_takes() {
    printf '%s\n' "${@:2}" >"$room/log"
    "$program" wire "$room/log" </dev/null >"$room/out" 2>"$room/err" && cmp -- "$room/err" /dev/null &&
        cmp -- <(sed '1,2d; /^falls /d; /^sent: /d; /^ended: /d; /^doubt: /d; /^outstanding: /d' "$room/out") \
            <(printf '%s' "${1:+$1$'\n'}")
}

# From a message to its end, if both have times, by connection and number. The first of those that take as long is told.
times_of_commands() {
    wire_takes 'longest: 0.75, from line 2 to line 4: second READ 1 of unit 0' "@1 $(reading 1)" "@1.5 second $(reading 1)" \
        "@1.625 $(moved 1 0 1024)" "@2.25 second $(moved 1 0 1024)" "$(reading 2)" "@9 $(moved 2 0 1024)" "@9 $(reading 3)" \
        "$(moved 3 0 1024)" &&
        wire_takes 'longest: 2.0, from line 1 to line 2: ONLINE 1 of unit 3' "@1 $(online 1 3)" "@3 $(onlined 1 0 3)" "@3 $(online 1)" \
            "@5 $(onlined 1 0)" &&
        wire_takes 'longest: 0.0, from line 1 to line 2: ONLINE 1 of unit 0' "@5 $(online 1)" "@4 $(onlined 1 0)" &&
        wire_takes 'longest: 1.0, from line 3 to line 4: command 1 of unit 0 (unknown opcode 77)' "@0 $(online 1)" reset \
            "@9 send $(packet 12 1 0 77 0)" "@10 end $(packet 12 1 0 128 2049)" &&
        wire_takes '' "$(online 1)" "$(onlined 1 0)" && wire_takes '' "@1 $(online 1)" && wire_takes '' '# 12 @ 1' "$(online 1)" \
        "$(onlined 1 0)"
}

# The longest of the polls beside that of all commands.
times_of_polls() {
    wire_takes 'longest: 8.0, from line 1 to line 6: READ 1 of unit 0
longest poll: 0.5, from line 4 to line 5: GET COMMAND STATUS 3 of unit 0' "@1 $(reading 1)" "@2 $(poll 2 1)" "@2.25 $(polled 2 1 9)" \
        "@3 $(poll 3 1)" "@3.5 $(polled 3 1 8)" "@9 $(moved 1 0 1024)"
}

# Sooner after the last of the same command than the controller timeout, here 60 seconds, once that is told.
hasty_polls_are_counted() {
    local told=("send $(packet 32 9 0 4 0)" "end $(packet 28 9 0 132 0 0 60 7 5)")
    wire_takes 'hasty polls: 2' "${told[@]}" "$(reading 1)" "@1 $(poll 2 1)" "$(polled 2 1 9)" "@60.999999999 $(poll 2 1)" \
        "$(polled 2 1 8)" "@120 $(poll 2 1)" "$(polled 2 1 7)" "@180 $(poll 2 1)" "$(polled 2 1 6)" &&
        wire_takes '' "${told[@]}" "$(reading 1)" "@1 $(poll 2 1)" "$(polled 2 1 9)" "second $(reading 1)" "@2 second $(poll 2 1)" \
            "second $(polled 2 1 9)" "$(reading 3)" "@3 $(poll 2 3)" "$(polled 2 3 9)" &&
        wire_takes '' "${told[@]}" "$(reading 1)" "@1 $(poll 2 1)" "$(polled 2 1 9)" "$(moved 1 0 1024)" "$(reading 1)" \
            "@2 $(poll 2 1)" "$(polled 2 1 9)" &&
        wire_takes '' "$(reading 1)" "@1 $(poll 2 1)" "$(polled 2 1 9)" "@2 $(poll 2 1)" "$(polled 2 1 8)" &&
        wire_takes 'hasty polls: 1' "${told[@]}" "$(reading 1)" "@1 $(poll 2 1)" "$(polled 2 1 9)" "$(poll 2 1)" "$(polled 2 1 8)" \
            "@2 $(poll 2 1)" "$(polled 2 1 7)" "@3 $(poll 2 1)" "$(polled 2 1 6)"
}

# Each port has its own.
times_of_ports() {
    wire_says "$(port_right 0)
longest: 2.0, from line 1 to line 5: ONLINE 1 of unit 0
$(port_right 1)
longest: 0.5, from line 3 to line 7: ONLINE 1 of unit 0" 0 "@1 $(online 1)" 'port 1' "@3 $(online 1)" 'port 0' "@3 $(onlined 1 0)" \
        'port 1' "@3.5 $(onlined 1 0)"
}
