# What the tests of the scripts share: a tree in a folder with blanks in its name, with stand-ins for rt and for the
# compiler.

. tests/counting.bash
make_room
tree="$room/a tree"
export STAND_IN=$room/stand_in PATH=$PWD/tests/stand_in:$PATH TMPDIR=$room/tmp
unset CC
mkdir "$TMPDIR"

# A tree of four tiny crates with nothing built, and nothing that rt was told or has told.
plant() {
    rm -rf -- "$tree" "$STAND_IN" "$room/commands"
    mkdir -p "$STAND_IN" "$tree"/{docs/pictures,include,examples,releasing} "$tree"/crates/{low,mscp_c,mscpq,mscpjudge}/{src/out,specs,proofs/main}
    cp mscpq mscpjudge install building.bash "$tree" && cp -r releasing/{finding,pages} "$tree/releasing"
    echo 'a kit' >"$STAND_IN/kit"
    echo 'Handles allowed: none.' >"$tree/HANDLES"
    printf '%s\n' '# The crates.' 'low: std' 'mscpq: low' 'mscp_c staticlib: low' 'mscpjudge: low' >"$tree/crates.txt"
    echo low >"$tree/crates/low/src/lib.rt"
    echo main >"$tree/crates/mscpq/src/main.rt"
    echo judge >"$tree/crates/mscpjudge/src/main.rt"
    echo library >"$tree/crates/mscp_c/src/lib.rt"
    echo probe | tee "$tree/crates/mscpq/stdin" >"$tree/crates/mscpjudge/stdin"
    echo page >"$tree/docs/mscpq.1"
    echo judging >"$tree/docs/mscpjudge.1"
    printf '%s\n' '.TH MSCP 3 DATE' '.SH SYNOPSIS' '.B "int32_t mscp_it(void);"' '.SH CALLS' .TP '.B mscp_it' 'It is.' >"$tree/docs/mscp.3"
    echo document >"$tree/docs/C.md"
    echo picture >"$tree/docs/pictures/it.svg"
    echo changes >"$tree/CHANGELOG.md"
    echo first >"$tree/README.md"
    echo examples >"$tree/examples/README.md"
    printf '%s\n' '#!/bin/sh' >"$tree/examples/worst"
    chmod +x "$tree/examples/worst"
    echo header >"$tree/include/mscp.h"
    echo exports >"$tree/include/shared.c"
    echo 1.2.3 >"$tree/VERSION"
}

# How often rt was told to build, or whatever else the word says.
calls() { cat -- "$STAND_IN/calls" 2>/dev/null | grep -c "^$1$"; }

# What is below out, save the lock.
left() { find "$tree/out" -mindepth 1 ! -name lock; }

# One is kept, and nothing else is left.
keeps_one() { [ "$(left | wc -l)" -eq 1 ]; }

# Nothing is there that a later run could trust, nor any file that was only wanted for a while.
leaves_nothing() { [ -z "$(left)$(ls -A "$TMPDIR")" ]; }

# Makes a folder with a command of this name, which runs these words before the command itself.
make_command() {
    mkdir -p "$room/commands"
    printf '%s\n' '#!/bin/sh' "$2" "exec $(command -v "$1") \"\$@\"" >"$room/commands/$1"
    chmod +x "$room/commands/$1"
}

# Makes a setpriv of which the call of this number waits until its caller has ended, as `started` tells.
make_late_setpriv() {
    make_command setpriv "echo >>\"\$STAND_IN/tied\"
        if [ \$(wc -l <\"\$STAND_IN/tied\") -eq $1 ]; then
            echo \$\$ \$\$ >\"\$STAND_IN/started\"
            while [ \"\$(cut -d ' ' -f 4 /proc/\$\$/stat)\" -eq \"\$PPID\" ]; do sleep 0.02; done
        fi"
}

# Waits until the stand-in tells its processes, or its caller of this number has ended.
wait_for_stand_in() {
    until [ -s "$STAND_IN/started" ] || [ ! -e "/proc/$1" ]; do
        sleep 0.02
    done
    stand_in='' child=''
    read -r stand_in child <"$STAND_IN/started"
}

# What a script said last is shown where a test fails.
attempt() {
    : >"$room/in"
    : >"$room/err"
    plant
    "$@" || { sed 's/^/    /' "$room/err" && return 1; }
}
