# What the tests here share: each names itself, and the last line counts them.

passed=0 failed=0 skipped=0

# Runs a test, of which the words tell what must hold, and says how it went.
try() {
    local what=$1
    shift
    if "$@"; then
        passed=$((passed + 1))
        echo "$what: passed"
    else
        failed=$((failed + 1))
        echo "$what: FAILED"
    fi
}

# Says that a test isn't run, since the machine lacks what a package of Debian has.
skip() {
    skipped=$((skipped + 1))
    echo "$1: skipped, since it wants the package $2"
}

# The last line, and the status: without a test nothing was tested, which is a failure too, unless some were skipped.
count() {
    local left_out=''
    [ "$skipped" -eq 0 ] || left_out=", $skipped skipped"
    echo "$passed passed, $failed failed$left_out"
    [ "$failed" -eq 0 ] && [ $((passed + skipped)) -gt 0 ]
}

# Makes the folder `room` for what a test writes, which is removed at every end.
make_room() {
    room=''
    trap 'rm -rf -- "$room"' EXIT
    trap 'exit 129' HUP
    trap 'exit 130' INT
    trap 'exit 143' TERM
    room=$(mktemp -d) || exit 2
}

# A process has ended, whether or not its parent has asked for its status.
is_gone() {
    for _ in {1..200}; do
        grep -q '^State:[[:space:]]*[^ZX[:space:]]' "/proc/$1/status" 2>/dev/null || return 0
        sleep 0.05
    done
    return 1
}

# Prints a C file that compiles if mscp.h says what the sources say.
mirror() {
    local memory=crates/mscp_memory/src
    awk -f tests/c/mirror.awk VERSION crates/mscp_c/src/*.rt crates/mscp_packet/src/opcodes.rt crates/mscp_port/src/stage.rt \
        crates/mscp_host/src/{asked,ticking}.rt "$memory"/{controller,driver,host,port}/{handle,marks}.rt
}

# Builds the C library to this file, with these words of rt more. Another build of it waits, since rt has one place for all.
build_library() {
    local to=$1
    shift
    mkdir -p out && flock out/lock "$BASH" -c 'cd crates/mscp_c && rt lib "${@:2}" && cp out/libmscp_c.a "$1"' '' "$to" "$@" \
        >"$room/rt" 2>&1 || { cat -- "$room/rt" && return 1; }
}
