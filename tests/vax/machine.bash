# Read by tests/simh, which has a VAX of SIMH boot and copy, too: its own tests of it. $source has SIMH's sources, and $room is the
# folder of all that is made.

# SIMH's VAX: the console of its KA655 lists the units with their drives, and VMB boots an image of 40 blocks of the second one.
vax_lists_its_disks_and_boots() {
    examples/simh/build "$source" "$room/vax" vax >"$room/out" 2>"$room/err" || { cat "$room/err" && return 1; }
    python3 tests/vax/disk.py "$room/vax/boot.dsk" &&
        printf '%s\n' 'set rq0 ra81' 'attach rq1 boot.dsk' 'boot cpu' 'examine r0' 'exit' >"$room/vax/commands" &&
        (cd -- "$room/vax" && python3 "$OLDPWD/tests/vax/console.py" 120 '>>>' 'SHOW UQSSP' '>>>' 'BOOT/R5:8 DUA1' Goodbye \
            -- ./vax commands) >"$room/said" &&
        grep -qx -- '-DUA0 (RA81)' "$room/said" && grep -qx -- '-DUA3 (RD54)' "$room/said" &&
        grep -qxP 'R0:\t00012345' "$room/said" || { cat "$room/said" && return 1; }
}

# SIMH's VAX goes by these commands with the program that copies so many blocks of a.dsk to b.dsk, where the first $pages pages are
# mapped.
vax() {
    python3 tests/vax/copy.py "$room/copying" "$1" ${pages:+"$pages"} && machine "$room/vax/vax" 'load -o copying 10000' "${@:2}"
}

vax_copied() { grep -qxP 'R0:\t00012345' "$room/said" && cmp -n $((512 * $1)) "$room"/{a,b}.dsk || { cat "$room/said" && return 1; }; }

vax_copies() {
    make_disks copy 1024 && vax 1024 "${both_disks[@]}" 'run 10000' 'examine r0' && vax_copied 1024
}

# In the middle of the copy it is saved, and another process goes on with it. `next` of copy.py is at 1008A.
vax_goes_on_where_it_was_saved() {
    make_disks copy 1024 && vax 1024 "${both_disks[@]}" 'break 1008a[40]' 'run 10000' 'save middle' &&
        grep -q 'Breakpoint, PC: 0001008A' "$room/said" && ! cmp -s -n $((512 * 1024)) "$room"/{a,b}.dsk &&
        machine "$room/vax/vax" 'restore middle' 'nobreak all' 'cont' 'examine r0' && vax_copied 1024
}

# A drive error, B, where the host's disk is full: no file grows beyond 50 KiB here, which are twelve times eight blocks, 60
# hexadecimal, and four. Then a copy of less goes well.
vax_fills_its_disk() {
    make_disks copy 1024 &&
        (ulimit -f 50 && trap '' XFSZ && vax 1024 "${both_disks[@]}" 'run 10000' 'examine r0' 'examine r9') &&
        grep -qxP 'R0:\t0000000B' "$room/said" && grep -qxP 'R9:\t00000060' "$room/said" && cmp -n 51200 "$room"/{a,b}.dsk &&
        [ "$(stat -c %s "$room/b.dsk")" -eq 51200 ] && vax 96 "${both_disks[@]}" 'run 10000' 'examine r0' && vax_copied 96
}

# Amid a copy a disk is locked, after 24 blocks: it is write protected by its hardware, 2006. Another one is unlocked.
vax_locks_while_attached() {
    make_disks copy 1024 && vax 1024 "${both_disks[@]}" 'break 1008a[4]' 'run 10000' 'set rq1 locked' 'nobreak all' 'cont' 'examine r0' &&
        grep -qxP 'R0:\t00002006' "$room/said" && [ "$(stat -c %s "$room/b.dsk")" -eq $((512 * 24)) ] &&
        vax 1024 'attach rq0 a.dsk' 'set rq1 locked' 'attach rq1 b.dsk' 'break 1008a' 'run 10000' 'set rq1 writeenabled' 'nobreak all' \
            'cont' 'examine r0' && vax_copied 1024
}

# The Q-bus has no memory from the second block of a READ on: its status is 69 hexadecimal, and nothing is written.
vax_misses_memory() {
    make_disks copy 1024 && pages=161 vax 1024 "${both_disks[@]}" 'run 10000' 'examine r0' && [ ! -s "$room/b.dsk" ] &&
        grep -qxP 'R0:\t00000069' "$room/said" || { cat "$room/said" && return 1; }
}
