# Read by tests/simh: its tests of disks that are far, new, gone or unreadable, of silent hosts, and of two controllers. $ours is the
# machine, and $room is the folder of all that is made.

# Lines of what goes by, as SET RQ DEBUG has them written.
lines_of_messages() { tr -d '\r' <"$room/messages" | grep '^RQ'; }
said_of_messages=('set debug messages' 'set rq debug')

# A message says this.
is_said() { lines_of_messages | grep -qE "$1" || { lines_of_messages && return 1; }; }

drives_are_as_in_simhs_list() {
    grep -E '^#define R(X|D|A|RD)[0-9]+_|^#define RQDF_' "$room/simh/PDP11/pdp11_rq.c.simh" >"$room/list.h" &&
        gcc -Iinclude -Iexamples "-I$room" tests/pdp11/drives.c -o "$room/drives" && "$room/drives"
}

# An RA92 has more than a gibibyte. A copy from its block 2^21 on, of 4 times 32, is of those blocks, and nothing is written elsewhere.
copies_behind_a_gibibyte() {
    local block=$((1 << 21))
    make_disks copy 8 chunks=4 above=40 &&
        dd if="$room/random" of="$room/a.dsk" bs=512 seek="$block" count=128 conv=notrunc status=none &&
        machine "$ours" 'set rq0 ra92' 'set rq1 ra92' "${both_disks[@]}" "${booted[@]}" && halts_with 012345 &&
        [ "$(stat -c %s "$room/b.dsk")" -eq $((512 * (block + 128))) ] && [ "$(stat -c %b "$room/b.dsk")" -lt 1024 ] &&
        tail -c $((512 * 128)) "$room/b.dsk" | cmp -n $((512 * 128)) - "$room/random"
}

# A folder can be attached, and not be read: that is a drive error, B. The boot code gives up then, at its fail.
unreadable_disk_fails() {
    rm -f -- "$room/messages" && mkdir -p "$room/folder" &&
        machine "$ours" "${said_of_messages[@]}" 'attach -r rq1 folder' 'boot rq1' && grep -q 'HALT instruction, PC: 0162' "$room/said" &&
        is_said '^RQ controller: end 0 unit 1 code a1 status 000b bytes 0$'
}

# A disk that is taken out amid a copy is gone: there is no volume, 23 hexadecimal. `give` of copy.s is at 446.
detached_disk_is_gone() {
    rm -f -- "$room/messages" && make_disks copy 1024 chunks=40 &&
        machine "$ours" "${both_disks[@]}" 'break 446[40]' 'boot rq0' "${said_of_messages[@]}" 'detach rq1' 'nobreak all' 'cont' \
            'examine -o r0' && halts_with 000006 && is_said '^RQ controller: end [0-9]* unit 1 code a2 status 0023 bytes 0$'
}

# What can't be written on isn't unlocked by SET RQ1 WRITEENABLED: its status stays 2006 hexadecimal. At 1000 both units are online.
read_only_file_stays_locked() {
    rm -f -- "$room/messages" && make_disks copy 128 chunks=4 && touch "$room/b.dsk" &&
        machine "$ours" "${said_of_messages[@]}" 'attach rq0 a.dsk' 'attach -r rq1 b.dsk' 'break 1000' 'boot rq0' 'set rq1 locked' \
            'set rq1 writeenabled' 'show rq1' 'nobreak all' 'cont' 'examine -o r0' && halts_with 000006 &&
        is_said ' unit 1 code a2 status 2006 ' && grep -q 'write locked' "$room/said"
}

# A READ to where there is no memory has a status of its own, 69 hexadecimal. With 64 KiB for each command the third has none here.
missing_memory_is_told() {
    rm -f -- "$room/messages" && make_disks copy 8192 "${of_127[@]}" &&
        machine "$ours" 'set cpu 11/83 256k' "${said_of_messages[@]}" "${both_disks[@]}" "${booted[@]}" && halts_with 000006 &&
        is_said ' unit 0 code a1 status 0069 bytes 0$'
}

# EXAMINE shows what is on a disk now, also where it was shown before the host wrote there, and DEPOSIT changes what the host reads.
# 144000 is where block 100 begins.
disk_is_examined() {
    make_disks copy 128 chunks=4 && machine "$ours" "${both_disks[@]}" 'examine rq1 144000' 'deposit rq0 144000 123456' "${booted[@]}" \
        'examine rq1 144000' && has_copied 128 && [ "$(sed -nE 's/^144000:\t([0-7]+).*/\1/p' "$room/said" | tr '\n' ' ')" = '000000 123456 ' ]
}

# A host that may be silent for a second is dead after the next one: when its clock has ticked some 120 times. SA is 8009 hexadecimal.
silent_host_is_dead() {
    local ticks
    make_disks silent 1 && machine "$ours" 'attach rq0 a.dsk' "${booted[@]}" 'examine -o r1' && halts_with 100011 &&
        ticks=$((8#$(sed -nE 's/^R1:\t([0-7]+).*/\1/p' "$room/said"))) && [ "$ticks" -gt 90 ] && [ "$ticks" -lt 150 ]
}

# In place of a READ (see shows_who_waits) a host asks for attention messages, and hears of each disk that comes into unit 2 within
# 1000 instructions, though the port rests, which looks for itself with each tick of the clock. At 712 it would halt, and goes on there.
attention_comes_at_once() {
    local commands=()
    for _ in 1 2 3; do commands+=('set rq debug' 'attach rq2 program' 'step 1000' 'set rq nodebug' 'detach rq2' 'step 100000'); done
    rm -f -- "$room/messages" && make_disks copy 128 chunks=4 &&
        machine "$ours" 'set cpu 11/83 256k' 'set debug messages' "${both_disks[@]}" 'deposit rq pause 1000' 'break 1120' 'boot rq0' \
            'nobreak all' 'deposit rq pause 200' 'deposit 15014 4' 'deposit 15020 0' 'deposit 15022 200' 'deposit 15024 0' \
            'deposit 712 777' 'step 100000' "${commands[@]}" &&
        lines_of_messages | diff - <(printf 'RQ controller: unit 2 is available\n%.0s' 1 2 3)
}

# By the second controller, whose units have the numbers from 4 on.
copies_by_the_second_controller() {
    make_disks copy 1024 chunks=40 first=4 ip=160374 && machine "$ours" 'set rqb enabled' 'attach rqb0 a.dsk' \
        'attach -q rqb1 b.dsk' 'boot rqb0' 'examine -o r0' && has_copied 1024
}

# The processor takes the interrupts of both, each by its vector, and none that was taken back.
two_controllers_interrupt() {
    make_disks two 1 && machine "$ours" 'set rqb enabled' 'attach rq0 a.dsk' 'boot rq0' 'examine r2' 'examine r3' &&
        grep -qxP 'R2:\t000001' "$room/said" && grep -qxP 'R3:\t000002' "$room/said" || { cat "$room/said" && return 1; }
}

# No two units have one identifier, of whichever controllers they are. BOOT brings its unit online.
identifiers_are_of_one_unit() {
    local name
    rm -f -- "$room/messages" && make_disks halt 1 || return
    for name in rq0 rq1 rqb0 rqb1 rqc0 rqd3; do
        machine "$ours" 'set rqb enabled' 'set rqc enabled' 'set rqd enabled' 'set debug messages' "set ${name%?} debug" \
            "attach $name a.dsk" "boot $name" || return
    done
    sed -nE 's/.* code 89 status 0000 id ([0-9]+) .*/\1/p' "$room/messages" >"$room/ids" && [ "$(wc -l <"$room/ids")" -eq 6 ] &&
        [ -z "$(sort "$room/ids" | uniq -d)" ] || { cat "$room/ids" && return 1; }
}

# Where the first controller is away the second one may have its address, and has its registers then.
disabled_controller_is_away() {
    make_disks copy 128 chunks=4 first=4 && machine "$ours" 'set rq disabled' 'set rqb enabled' 'set rqb address=17772150' \
        'attach rqb0 a.dsk' 'attach -q rqb1 b.dsk' 'boot rqb0' 'examine -o r0' && has_copied 128
}
