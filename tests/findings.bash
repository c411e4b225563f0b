# Logs of the wire that aren't right, for tests/judge: in which lines is told what a moment is compared with, what counts as told
# behind it, and all that is wrong of a log.

# The last of the lines breaks a rule, and these are the lines where that is told.
wire_places() {
    printf '%s\n' "${@:2}" >"$room/log"
    "$program" wire "$room/log" </dev/null >"$room/out" 2>"$room/err"
    [ $? = 1 ] && head -n 1 "$room/out" | grep -qx "line $(wc -l <"$room/log"): not right" &&
        cmp -- <(comm -13 <(without_places <"$room/out" | sort) <(sort "$room/out")) <(printf '%s' "${1:+$1
}" | sort)
}

# A poll knows the figure that was told when it was sent, not one that was told since.
places_of_a_figure() {
    wire_places $'sent in line 4\nthe last was told in line 3' "$(reading 1)" "$(poll 2 1)" "$(polled 2 1 8)" "$(poll 3 1)" \
        "$(polled 3 1 9)" &&
        wire_places $'sent in line 5\nthe last was told in line 3' "$(reading 1)" "$(poll 2 1)" "$(polled 2 1 8)" "$(poll 3 1)" \
            "$(poll 4 1)" "$(polled 3 1 7)" "$(polled 4 1 8)" &&
        wire_places $'sent in line 7\nthe last was told in line 6' "$(reading 1)" "$(poll 2 1)" "second $(reading 1)" \
            "$(polled 2 1 9)" "second $(poll 2 1)" "second $(polled 2 1 8)" "second $(poll 2 1)" "second $(polled 2 1 8)" &&
        wire_places 'sent in line 6' "$(reading 1)" "$(poll 2 1)" "$(polled 2 1 8)" "$(moved 1 0 1024)" '' "$(poll 2 1)" \
            "$(polled 2 1 8)"
}

# A number may have been used before.
places_of_a_command() {
    wire_places 'sent in line 4' "$(reading 1)" "$(moved 1 0 1024)" "second $(reading 1)" "$(reading 1)" "$(moved 1 0 512)" &&
        wire_places $'sent in line 3\nwhat it passes was sent in line 2' reset "$(online 7)" "$(reading 8)" "$(moved 8 0 1024)" &&
        wire_places '' "$(moved 1 0 1024)" && wire_places '' "$(reading 1)" "end $(packet 28 1 0 161 0 1024)"
}

places_of_a_message() {
    wire_places 'the other was sent in line 2' reset "$(reading 1)" "second $(reading 2)" "$(reading 1)" &&
        wire_places '' 'credits 3' "$(reading 1)" "$(moved 1 0 1024)" "$(reading 2)" "$(reading 3)" "$(reading 1)" &&
        wire_places '' 'send 00'
}

# All that is wrong in these lines: of each line N the rule, and how many break each.
wire_finds() {
    printf '%s\n' "${@:2}" >"$room/log"
    "$program" wire --all "$room/log" </dev/null >"$room/out" 2>"$room/err"
    [ $? = 1 ] && cmp -- "$room/err" /dev/null && cmp -- <(printf '%s\n' "$1") \
        <(sed -n 's/^line \([0-9]*\): not right$/\1/; t number; s/^rule of the [a-z]*: //; t rule; /^wrong: /p; d
            :number; h; d
            :rule; H; x; s/\n/ /; p' "$room/out")
}

# An end that breaks a rule ends its command, though it may be too short, and its figure is the last one. What a unit is stays as
# it was told first. A command that comes without a credit is outstanding.
what_counts_as_told() {
    wire_finds $'2 byte count\n3 outstanding\nwrong: 1 outstanding\nwrong: 1 byte count' "$(reading 1)" "$(moved 1 0 512)" \
        "$(moved 1 0 1024)" &&
        wire_finds $'2 length\nwrong: 1 length' "$(reading 1)" "end $(packet 12 1 0 161 2)" "$(reading 1)" "$(moved 1 0 1024)" &&
        wire_finds $'5 figure\n7 figure\nwrong: 2 figure' "$(reading 1)" "$(poll 2 1)" "$(polled 2 1 8)" "$(poll 3 1)" \
            "$(polled 3 1 9)" "$(poll 4 1)" "$(polled 4 1 9)" "$(poll 5 1)" "$(polled 5 1 8)" &&
        wire_finds $'4 identity\n8 identity\nwrong: 2 identity' "$(unit_status 2 0 0)" "end $(packet 48 2 0 131 0 0 0 1)" \
            "$(unit_status 3 0 0)" "end $(packet 48 3 0 131 0 0 0 2)" "$(unit_status 4 0 0)" "end $(packet 48 4 0 131 0 0 0 1)" \
            "$(unit_status 5 0 0)" "end $(packet 48 5 0 131 0 0 0 2)" &&
        wire_finds $'3 credits\nwrong: 1 credits' 'credits 2' "$(reading 1)" "$(reading 2)" "$(moved 2 0 1024)" "$(moved 1 0 1024)"
}

# A message of a number that is outstanding doesn't, nor does a packet that is too short for a number, or a command of a host that
# has 1,024 outstanding.
what_doesnt_count() {
    local many
    wire_finds $'2 reference number\n4 outstanding\nwrong: 1 reference number\nwrong: 1 outstanding' "$(reading 1)" \
        "$(reading 1 3)" "$(moved 1 0 1024)" "$(moved 1 0 1024 3)" &&
        wire_finds $'2 message\n3 length\nwrong: 1 message\nwrong: 1 length' "$(reading 1)" 'send 01000000' 'end 01000000' \
            "$(moved 1 0 1024)" || return
    mapfile -t many < <(for ((n = 1; n <= 1025; n++)); do reading "$n"; done)
    wire_finds $'1024 credits\n1025 credits\n1027 outstanding\nwrong: 2 credits\nwrong: 1 outstanding' "${many[@]}" \
        "$(moved 1024 0 1024)" "$(moved 1025 0 1024)"
}

# In the order of the rules, and with no line for those that none breaks.
all_rules_are_counted() {
    wire_finds $'1 outstanding\n2 message\n4 reference number\n5 unit\n7 endcode\n9 aborted\n11 success
wrong: 1 message\nwrong: 1 reference number\nwrong: 1 outstanding\nwrong: 1 unit\nwrong: 1 endcode\nwrong: 1 aborted\nwrong: 1 success' \
        "$(moved 9 0 1024)" 'send 00' "$(reading 1)" "$(reading 1)" "$(moved 1 0 1024 5)" "$(reading 2)" \
        "end $(packet 32 2 0 162 0 1024)" "$(reading 3)" "$(moved 3 2 0)" "$(abort 4 9)" "$(aborted 4 1 9)"
}

# Of a log that is right, and of each of one wrong moment, it is what is said without the flag, but for the manual's words.
all_of_a_right_log() {
    local log
    for log in examples/*.wire; do
        "$program" wire --all "$log" >"$room/out" 2>"$room/err"
        [ $? = "$(grep -qx right "${log%.wire}.judged"; echo $?)" ] && cmp -- "$room/err" /dev/null || return
        grep -v '^manual: ' "${log%.wire}.judged" | cmp -- - <(head -n "$(grep -vc '^manual: ' "${log%.wire}.judged")" "$room/out") || return
    done
}

# A line at fault is told, wherever it stands, and nothing else.
faults_behind_a_wrong_line() {
    printf '%s\n' "$(moved 1 0 1024)" "$(moved 1 0 1024)" 'end zz' >"$room/log"
    "$program" wire --all "$room/log" </dev/null >"$room/out" 2>"$room/err"
    [ $? = 1 ] && cmp -- "$room/out" /dev/null && fault_is_explained 'line 3: hex' "$room/log" limit_on_wire || return
    printf '%s\n' "$(moved 1 0 1024)" 'credits 3' "$(reading 1)" 'credits 3' >"$room/log"
    "$program" wire --all "$room/log" </dev/null >"$room/out" 2>"$room/err"
    [ $? = 1 ] && cmp -- "$room/out" /dev/null && fault_is_explained 'line 2: word' "$room/log" limit_on_wire
}

# They stand behind wire, before a file or none.
flags_of_the_wire() {
    local words
    echo reset >"$room/log"
    "$program" wire --all <"$room/log" | cmp -- - <("$program" wire "$room/log") || return
    for words in 'legal --all' 'wire --all x y' 'wire --al x' 'legal --show x' '--all x y' 'wire x --all'; do
        "$program" $words </dev/null >"$room/out" 2>"$room/err" # words
        [ $? != 0 ] && cmp -- "$room/out" /dev/null || return
    done
    "$program" wire --al x </dev/null >"$room/out" 2>"$room/err"
    [ $? = 2 ] && grep -qx 'usage: .*' "$room/err"
}

# The usual slips: spaces between digits, a tab, a byte order mark, a packet of 65 bytes, another word.
slips_are_explained() {
    local slip cause
    while IFS='|' read -r slip cause; do
        printf "$slip\n" >"$room/log"
        "$program" wire --all "$room/log" </dev/null >"$room/out" 2>"$room/err"
        [ $? = 1 ] && cmp -- "$room/out" /dev/null && fault_is_explained "line 1: $cause" "$room/log" limit_on_wire || return
    done <<END
send 01 00|count
send\\t0100|byte
\\357\\273\\277send 0100|byte
send $(packet 65 1 0 33 0)|hex
recv 0100|word
credits x|number
END
}
