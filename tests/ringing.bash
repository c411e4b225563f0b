# Logs of the wire that examples/capture/convert makes of dumps and of packets, for tests/judge.

# The rings of a log of examples/, in a memory, are judged as the log: the same rule and command, or right.
rings_are_judged() {
    local log=${1%.wire} status=0
    [ "$(head -n 1 "$log.judged")" = right ] || status=1
    python3 tests/dump.py "$1" 0x1000 64 64 5 9 >"$room/dump" &&
        examples/capture/convert rings 0x1000 64 64 "$room/dump" 0 5 9 >"$room/rings.wire" || return
    "$program" wire "$room/rings.wire" >"$room/out" 2>"$room/err" </dev/null
    [ $? = "$status" ] && cmp -- "$room/err" /dev/null || return
    if [ "$status" = 0 ]; then
        [ "$(head -n 1 "$room/out")" = right ] && cmp -- <(grep '^[se]' "$room/out") <(grep '^[se]' "$log.judged")
    else
        cmp -- <(grep '^[rc]' "$room/out") <(grep '^[rc]' "$log.judged")
    fi
}

# Of small rings, and of a dump from an address on: what is left out is said.
a_dump_says_what_it_leaves_out() {
    {
        reading 3 && moved 3 0 1024 && reading 4 && poll 5 4 && polled 5 4 9 && abort 6 4 && moved 4 2 0 && aborted 6 0 4
        reading 7 && unit_told 8 0 && reading 9
    } >"$room/log"
    python3 tests/dump.py "$room/log" 0x2000 5 4 1 2 | tail -c +4097 >"$room/dump" &&
        examples/capture/convert rings 0x2000 5 4 "$room/dump" 0x1000 1 2 >"$room/rings.wire" &&
        cmp -- "$room/rings.wire" <(
            echo "# response slot 1: the end of 3, whose message isn't there"
            poll 5 4 && polled 5 4 9
            echo "# response slot 3: the end of 4, whose message isn't there"
            abort 6 4 && aborted 6 0 4
            echo "# response slot 0: the end of 8, whose message isn't there"
            reading 7 && reading 9
        )
}

# The messages stand as late as they can, but an ABORT before the end of what it aborted.
an_abort_stands_before_what_it_aborted() {
    { reading 4 && reading 3 && abort 6 4 && moved 4 2 0 && aborted 6 0 4 && moved 3 0 1024 && reading 7; } >"$room/log"
    python3 tests/dump.py "$room/log" 0 8 4 0 0 >"$room/dump" && examples/capture/convert rings 0 8 4 "$room/dump" >"$room/out" &&
        cmp -- <(grep -v '^#' "$room/out") "$room/log" && [ "$(grep -c '^# response slot [34567]: no end$' "$room/out")" = 5 ]
}

# Packets with their envelopes: other kinds of them are left out, and a reset stays.
packets_are_sorted() {
    local read=$(reading 3) end=$(moved 3 0 1024)
    {
        echo reset
        echo "from 20000000${read#send }"
        echo "to 0c 00 11 00 ${end:4:24}"
        echo "to 0c000100000000000000000040000000"
        echo "from 0c00000201000000000000000100000000000000"
        echo "to 20000f00${end#end }ffff"
    } >"$room/packets"
    examples/capture/convert packets "$room/packets" >"$room/out" && cmp -- "$room/out" <(
        echo reset && echo "$read" && echo '# line 3: a datagram' && echo '# line 4: an attention message'
        echo '# line 5: connection 2' && echo "$end"
    )
}

# It ends with this status, and says this.
converts_nothing() {
    local status=$1 said=$2
    shift 2
    examples/capture/convert "$@" >"$room/out" 2>"$room/err" </dev/null
    [ $? = "$status" ] && cmp -- "$room/out" /dev/null && grep -qF -- "$said" "$room/err"
}

what_cant_be_converted_is_told() {
    head -c 4200 /dev/zero >"$room/dump" && echo 'from 20000000ff' >"$room/packets" &&
        converts_nothing 2 'convert rings BASE' && converts_nothing 2 'convert packets FILE' rings 0 4 "$room/dump" &&
        converts_nothing 2 'convert rings BASE' rings 0 4 0 "$room/dump" &&
        converts_nothing 1 "$room/missing" packets "$room/missing" &&
        converts_nothing 1 'convert: the dump has no 4 bytes at 0x1068' rings 0x1058 4 4 "$room/dump" &&
        converts_nothing 1 'convert: line 1: 1 of 32 bytes' packets "$room/packets" &&
        echo 'to 20,00' >"$room/packets" && converts_nothing 1 'convert: line 1: no packet' packets "$room/packets"
}
