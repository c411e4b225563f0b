# Read by tests/simh and bench/simh, which copy disks by SIMH's PDP-11: with the port as its RQ and with its own. $source
# has SIMH's sources, and $room is the folder of all that is made.
ours=$room/simh/pdp11 theirs=$room/simh/pdp11-simh

# Builds the machine with what was in the place of our file, in the folder of ours.
build_theirs() (
    cd -- "$room/simh" &&
        gcc -O2 -std=gnu99 -fcommon -fno-strict-aliasing -w -DVM_PDP11 -D_GNU_SOURCE -I. -IPDP11 \
            -x c -c PDP11/pdp11_rq.c.simh -o theirs.o &&
        gcc $(find objects -name '*.o' ! -name pdp11_rq.o ! -name 'rq_*.o' ! -name port.o ! -name mscp.o) theirs.o \
            -o pdp11-simh -lm -lrt
)

# Makes the disks a.dsk, of so many blocks, of which the first have a program that is assembled with these words, and no b.dsk.
make_disks() {
    local program=$1 blocks=$2
    shift 2
    rm -f -- "$room"/{a,b}.dsk
    [ -s "$room/random" ] || head -c $((512 * 8192)) /dev/urandom >"$room/random"
    python3 tests/pdp11/assemble.py "tests/pdp11/$program.s" "$room/program" "$@" &&
        head -c $((512 * blocks)) "$room/random" >"$room/a.dsk" && dd if="$room/program" of="$room/a.dsk" conv=notrunc status=none
}

# A machine goes by these commands of SIMH, and what it says is kept.
machine() {
    printf '%s\n' "${@:2}" exit >"$room/commands"
    (cd -- "$room" && timeout 120 "$1" commands >said 2>&1 </dev/null)
}

both_disks=('attach rq0 a.dsk' 'attach -q rq1 b.dsk')
booted=('boot rq0' 'examine -o r0')

# The program halted, with this in R0.
halts_with() { grep -qxP "R0:\t$1" "$room/said" || { cat "$room/said" && return 1; }; }

# Words for copy.s, of commands of so many blocks. By 127 each of the four has 64 KiB of memory.
of_32=(chunks=400) of_127=(chunks=100 blocks=177 bytes=177000 apart=0 wide=1)

# Copies by this machine, with memory for commands of 127 blocks.
copies() { machine "$1" 'set cpu 11/83 1m' "${both_disks[@]}" "${booted[@]}" && halts_with 012345; }

# The seconds of the processor for that, user and system together.
seconds_of() {
    local TIMEFORMAT='%U %S' both
    { both=$({ time copies "$1" >&3; } 2>&1); } 3>&2 || return
    awk -v both="$both" 'BEGIN { split(both, it, " "); printf "%.3f\n", it[1] + it[2] }'
}
