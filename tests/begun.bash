# Logs of the wire that begin in the middle, and connections that close, for tests/judge.

# An end of a command that was sent before the log is forgiven once. Of one that the log sends, or had an end, it is not.
ends_of_before() {
    local other
    for other in "$(moved 7 0 1024)" "$(availed 7 0)" "$(aborted 7 0 3)" "$(polled 7 3 5)"; do
        wire_says $'right\nmoments 0 messages 0 polls 0 ends 0 resets 0 queue 0' 0 begun "$other" &&
            wire_breaks 'controller: outstanding' '' "$other" && wire_breaks 'controller: outstanding' '' begun "$other" "$other" &&
            wire_is_right '0 0 0 0 0' '' begun "$other" "second $other" &&
            wire_breaks 'controller: outstanding' '' begun "second $other" "second $other" || return
    done
    wire_breaks 'controller: outstanding' '' begun "$(reading 1)" "$(moved 1 0 1024)" "$(moved 1 0 1024)" &&
        wire_is_right '1 1 0 0 0' 'outstanding: READ 1 of unit 0' begun "$(moved 1 0 1024)" "$(reading 1)" &&
        wire_breaks 'controller: outstanding' '' begun "$(moved 1 0 1024)" "$(reading 1)" "$(moved 1 0 1024)" "$(moved 1 0 1024)" &&
        wire_breaks 'controller: length' '' begun "end $(packet 28 1 0 161 0 1024)"
}

# After a reset nothing of before is outstanding. A connection that closes leaves the other host's.
resets_end_the_middle() {
    wire_breaks 'controller: outstanding' '' begun reset "$(moved 1 0 1024)" &&
        wire_is_right '1 0 0 0 1' '' begun 'second reset' "$(moved 1 0 1024)" &&
        wire_breaks 'controller: state' 'READ 1 of unit 0' begun reset "$(reading 1)" "$(moved 1 0 1024)"
}

# That a log begins in the middle is told first, by a word alone.
begun_stands_first() {
    wire_is_at_fault 'line 2: word' "$(online 1)" begun && wire_is_at_fault 'line 2: word' begun begun &&
        wire_is_at_fault 'line 2: word' 'credits 4' begun && wire_is_at_fault 'line 1: count' 'begun 1' &&
        wire_is_at_fault 'line 2: word' reset begun && wire_is_at_fault 'line 1: word' 'second begun' &&
        wire_is_right '1 1 0 0 0' 'outstanding: ONLINE 1 of unit 0' '# a capture' '' '@1 begun' 'credits 4' "$(online 1)" &&
        wire_breaks 'host: credits' 'READ 2 of unit 0' begun 'credits 2' "$(reading 1)" "$(reading 2)"
}

# A poll of a command of before may tell any figure, and one of a command of the log one that doesn't fall: an older one may
# be outstanding. That is a doubt, and after a reset wrong.
figures_of_before() {
    local stands=("$(reading 1)" "$(poll 2 1)" "$(polled 2 1 20)" "$(poll 3 1)" "$(polled 3 1 20)")
    wire_is_right '4 2 2 2 0' '' begun "$(poll 2 1)" "$(polled 2 1 20)" "$(poll 2 1)" "$(polled 2 1 20)" &&
        wire_breaks 'controller: figure' 'GET COMMAND STATUS 2 of unit 0' "$(poll 2 1)" "$(polled 2 1 20)" &&
        wire_is_right '5 3 2 2 0' $'doubt: 1 figure, first in line 6: GET COMMAND STATUS 3 of unit 0\noutstanding: READ 1 of unit 0' \
            begun "${stands[@]}" && wire_breaks 'controller: figure' 'GET COMMAND STATUS 3 of unit 0' "${stands[@]}" &&
        wire_breaks 'controller: figure' 'GET COMMAND STATUS 3 of unit 0' begun reset "${stands[@]}" &&
        wire_is_right '6 3 2 3 0' 'doubt: 1 figure, first in line 7: GET COMMAND STATUS 4 of unit 0' begun "$(reading 1)" \
            "$(moved 1 0 1024)" "$(poll 3 9)" "$(polled 3 9 20)" "$(poll 4 1)" "$(polled 4 1 20)" "$(moved 8 0 1024)"
}

# Whether a unit is online isn't known till an AVAILABLE or an ONLINE that the log sends to it succeeds. If there is a second
# host it stays unknown.
states_of_before() {
    local away=("$(unit_status 1 0 0)" "end $(packet 48 1 0 131 4)") moves=("$(reading 2)" "$(moved 2 0 1024)")
    local released=("$(available 3)" "$(availed 3 0)")
    wire_breaks 'controller: state' 'READ 2 of unit 0' "${away[@]}" "${moves[@]}" && wire_is_right '4 2 0 2 0' '' begun "${away[@]}" "${moves[@]}" &&
        wire_breaks 'controller: state' 'READ 2 of unit 0' begun "${released[@]}" "${moves[@]}" &&
        wire_is_right '4 2 0 2 0' '' begun "$(available 3)" "$(availed 3 1)" "${away[@]}" &&
        wire_is_right '6 3 0 3 0' '' begun "$(available 3)" "$(availed 3 1)" "${away[@]}" "${moves[@]}" &&
        wire_is_right '4 2 0 2 0' '' begun "${away[@]}" "second $(availed 3 0)" "${moves[@]}" &&
        wire_is_right '4 2 0 2 0' '' begun "${released[@]}" "second $(availed 9 0)" "${moves[@]}" &&
        wire_is_right '6 3 0 3 0' '' begun "second $(unit_status 1 0 0)" "second $(unit_told 1 0)" "${released[@]}" "${moves[@]}" &&
        wire_breaks 'controller: state' 'READ 2 of unit 0' begun "$(available 3 1)" "end $(packet 12 3 1 136 0)" reset "${moves[@]}" &&
        wire_is_right '6 3 0 3 0' '' begun "$(available 3 1)" "end $(packet 12 3 1 136 0)" "${away[@]}" "${moves[@]}"
}

# So is what it is.
identities_of_before() {
    local both=("$(unit_status 1 5 0)" "$(tells_status 1 0 3 4 0)" "$(unit_status 2 5 0)" "$(tells_status 2 0 9 4 0)")
    local up=("$(online 3 5)" "$(tells_online 3 0 3 4 800)")
    wire_breaks 'controller: identity' 'GET UNIT STATUS 2 of unit 5' "${both[@]}" && wire_is_right '4 2 0 2 0' '' begun "${both[@]}" &&
        wire_breaks 'controller: identity' 'GET UNIT STATUS 2 of unit 5' begun "${up[@]}" "${both[@]}"
}

# A connection that closes takes its commands away, and the other host's stay. Nothing is known of units then.
closed_connections() {
    local released=("$(available 3)" "$(availed 3 0)") moves=("$(reading 2)" "$(moved 2 0 1024)")
    wire_is_right '4 2 0 1 1' '' "$(reading 1)" "second $(reading 1)" 'second reset' "$(moved 1 0 1024)" &&
        wire_is_right '4 3 0 0 1' $'outstanding: READ 1 of unit 0\noutstanding: second READ 1 of unit 0' "$(reading 1)" "second $(reading 1)" \
            'second reset' "second $(reading 1)" &&
        wire_breaks 'controller: outstanding' '' "second $(reading 1)" "second $(reading 2)" "$(reading 1)" 'second reset' "second $(moved 2 0 1024)" &&
        wire_is_right '5 2 0 2 1' '' "${released[@]}" 'second reset' "${moves[@]}" &&
        wire_breaks 'host: credits' 'second READ 9 of unit 0' 'credits 3' "second $(poll 1 9)" 'second reset' "second $(poll 1 9)" "second $(poll 2 9)" \
            "second $(reading 9)" && wire_is_at_fault 'line 1: count' 'second reset now' && wire_is_at_fault 'line 2: word' 'second reset' 'second resets'
}
