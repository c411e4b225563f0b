# What ./mscpq, ./install and page/build share: to prove and build by rt, and to keep what was built of just these
# sources. ./check takes from here how it is stopped.
#
# What is kept is out/NAME-STAMP, a copy that is made only where rt has proved and built the sources of that stamp. A
# stamp is a sum over the names and contents of all files below crates/ save those of the crates' own out/, of
# crates.txt and HANDLES, and over the line of rt version. So nothing that anything else left is ever used, a change
# of a source leads to a build, and a build that failed is tried again at the next call.
#
# A build is a process of its own: this file, run by `provide`. It sets no trap, so it may be killed at any moment,
# and one builds at a time. The script that asked for it does nothing but wait, so no signal to that script is lost.
#
# Trusted are rt with the work that it keeps in crates/NAME/out, the tools of the system, and that nobody but these
# scripts writes below out/.
#
# Who reads this file sets `top`, the folder of the project, `name`, that of the script, and `nothing`, what it doesn't
# do where a build failed. It ends with 3 then, and with 128 and the signal's number where a signal ended a build.

say() { printf '%s: %s\n' "$name" "$*" >&2; }

# Ends with the status of a failed build.
refuse() {
    say "$nothing: $*"
    exit 3
}

# What does the same without the kit, if something does.
without_rt() {
    case $name in
        mscpq) echo '; without it, cc -O2 -Iinclude portable/mscpq.c portable/mscp.c -o mscpq-c builds the same as C' ;;
        install) echo '; without it, compile portable/mscp.c with your program, or take a release: make install puts its sources in place' ;;
        mscpjudge) echo '; without it, take the judge from a release for x86-64 Linux: toadnickel-VERSION-x86_64-linux.tar.gz, or the package mscpq' ;;
        page/build) echo '; without it, take the page from a release: toadnickel-VERSION-page.html, or toadnickel-VERSION-site.tar.gz with all documents' ;;
        portable/make) echo '; without it, take portable/mscp.c as it is' ;;
    esac
}

# The line that moves on a terminal.
draw() { [ ! -t 2 ] || printf '\r\033[K%s' "$1" >&2; }

# An older one can't wait for a process whose output it reads.
((BASH_VERSINFO[0] * 100 + BASH_VERSINFO[1] >= 404)) || refuse 'bash 4.4 or a later one is wanted'

# Becomes these words, and ends where this shell ends, however it does: the kernel sees to that. Where this shell has
# ended before the kernel knew of it, the words aren't run.
tied() { exec setpriv --pdeathsig KILL sh -c '[ "$PPID" -eq "$0" ] && exec "$@"' "$$" "$@"; }

# Removes these folders. What rt started may still write there for a moment after rt has ended.
remove() {
    for _ in {1..9}; do
        ! rm -rf -- "$@" 2>/dev/null || break
        sleep 0.2
    done
}

# Ends by this signal, as if it had not been caught, with all that was started. Bash itself never ends by QUIT.
interrupted() {
    trap '' HUP INT PIPE QUIT TERM
    kill -KILL -- "$!" "-$!" 2>/dev/null
    wait "$!" 2>/dev/null
    draw ''
    remove "$room"
    trap - "$1"
    kill -s "$1" "$$"
    exit 131
}

# Waits for what was started last, which is tied and a session of its own, and sets `status` to how it ended. Its room
# is gone then. Signals are caught only here, where no $( ) is expanded: bash 5.2 can lose one there.
attend() {
    local signal
    for signal in HUP INT PIPE QUIT TERM; do trap "interrupted $signal" "$signal"; done
    wait "$!"
    status=$?
    trap - HUP INT PIPE QUIT TERM
    [ ! -e "$room" ] || remove "$room"
}

# What is built: for people, by which words of rt in which crate, to which file, and its name where it is kept. The
# status of rt run may be the program's, so that gets an input on which it ends with 0.
the_program() {
    what='the program'
    words=(run) crate=$top/crates/mscpq built=$crate/out/mscpq kept=$top/out/mscpq
    input=$crate/stdin
}
the_judge() {
    what='the judge'
    words=run crate=$top/crates/mscpjudge built=$crate/out/mscpjudge kept=$top/out/mscpjudge
    input=$crate/stdin
}
the_library() {
    what='the library'
    words=(lib) crate=$top/crates/mscp_c built=$crate/out/libmscp_c.a kept=$top/out/libmscp
    input=/dev/null
}

# The same library for 64-bit ARM, and for a page in a browser. Neither name begins with one of those above, since what
# was kept of other sources is found by its name.
the_library_of_arm() {
    the_library
    what='the library for ARM'
    words=(lib --target aarch64-unknown-linux-gnu) kept=$top/out/arm-libmscp
}
the_library_of_a_page() {
    the_library
    what='the library for a page'
    words=(lib --target wasm64-unknown-unknown) kept=$top/out/page-libmscp
}

# Proves and builds the program or the library, where that isn't done yet from the sources that stand here now. It is
# then the file $kept-$wanted.
provide() {
    local told status
    "$1"
    room=$top/out/building.$$.$RANDOM # what is written before it can be trusted, also by rt
    exec {told}< <(tied setsid "$BASH" "$top/building.bash" "$1" "$top" "$name" "$nothing" "$room" </dev/null)
    attend
    [ "$status" -eq 0 ] || exit $((status > 128 ? status : 3))
    read -r wanted <&"$told"
    exec {told}<&-
}

# The name by which a program that is linked to the shared object finds it: with the first number of the version, since no
# other changes what the program was compiled for.
soname() { echo "libmscp.so.$(cut -d . -f 1 "$top/VERSION")"; }

# Makes the shared object of an archive of the library, by a compiler and its words. Nothing in it needs a stack that is
# run as code.
link_shared() {
    local archive=$1 to=$2 said
    shift 2
    local words=(-shared -fPIC -O2 -std=c99 -I "$top/include" "$top/include/shared.c" -Wl,--whole-archive
        "$archive" -Wl,--no-whole-archive "-Wl,-soname,$(soname),-z,defs,-z,noexecstack,-z,relro,-z,now")
    said=$("$@" "${words[@]}" -o "$to" 2>&1) || refuse "${to##*/} was not linked: $said"
}

# All that follows is the build's.

# Prints the stamp of what stands here now. A link that leads nowhere, as some editors leave one, is no source.
stamp() (
    set -o pipefail
    export LC_ALL=C
    cd -- "$top" || exit
    {
        rt version &&
            find crates.txt HANDLES crates -regex 'crates/[^/]*/out' -prune -o \
                '(' -type f -o -type l ! -xtype l ')' -print0 | sort -z | xargs -0 sha256sum --
    } | sha256sum | cut -d ' ' -f 1
)

# Tells whether a source was touched since this file was made, also where it has its old text again: nobody can set the time
# that tells it.
is_touched_since() {
    local found
    found=$(cd -- "$top" && find crates.txt HANDLES crates -regex 'crates/[^/]*/out' -prune -o \
        '(' -type f -o -type l ! -xtype l ')' -cnewer "$1" -print -quit) || refuse "the sources can't be read"
    [ -n "$found" ]
}

# Minutes and seconds since the build began.
elapsed() { printf '%d:%02d' $((SECONDS / 60)) $((SECONDS % 60)); }

# Says what rt is at, where no line on a terminal does.
begin() {
    doing=$1 checked='' # and how many functions of that crate are checked
    [ -t 2 ] || tell "$doing"
}

tell() {
    say "$1, after $(elapsed)"
    told=$SECONDS
}

# Says what isn't done yet, where no line was said for a minute: a crate may take many, if the machine has much else to do.
remind() {
    local names=$doing
    [ ! -t 2 ] && [ $((SECONDS - told)) -ge "$minute" ] || return 0
    [ "${#at_work[@]}" -eq 0 ] || { printf -v names ', %s' "${at_work[@]}" && names="proving ${names#, }"; }
    tell "still $names"
}

# Prints which of the crates that are wanted this is, if it is one of them.
place() {
    local it number=0
    for it in "${crates[@]}"; do
        number=$((number + 1))
        [ "$it" != "$1" ] || printf ', crate %d of %d' "$number" "${#crates[@]}"
    done
}

# This crate is proved.
leave() {
    local it rest=()
    for it in "${at_work[@]}"; do [ "$it" = "$1" ] || rest+=("$it"); done
    at_work=("${rest[@]}")
}

# Takes a line of rt's: where rt is, from the words that it has for that, and else what a failure is to show.
hear() {
    case $1 in
        'rt: chose --jobs '*' for '*)
            [ -n "$side_by_side" ] || at_work=()
            at_work+=("${1##* }")
            begin "proving ${1##* }$(place "${1##* }")"
            ;;
        'rt: ended '*) leave "${1##* }" ;;
        'rt: waiting for another rt '*) begin 'waiting for another rt' ;;
        'so far: '*' functions checked'*) checked=${1#so far: } checked=", ${checked%% functions checked*} functions" ;;
        *': proved' | *': modules loaded='*) ;;
        *) said+=$1$'\n' ;;
    esac
}

# Hears rt to its end. It wakes each second, so that the time moves.
follow() {
    local piece line='' status=0
    while [ "$status" -eq 0 ] || [ "$status" -gt 128 ]; do
        IFS= read -r -t 1 piece
        status=$?
        line+=$piece
        [ "$status" -ne 0 ] || { hear "$line" && line=''; }
        draw "$name: $doing$checked, after $(elapsed)"
        remind
    done
    [ -z "$line" ] || hear "$line"
    draw ''
}

# Becomes rt with these words, whatever the caller's settings are.
become_rt() { tied env -u RT_ALLOW_C -u RT_BACKEND -u RT_SECONDS PYTHONUNBUFFERED=1 TMPDIR="$room" rt "$@"; }

# The project's crates that this one stands on, lowest first.
below() {
    local low
    for low in $(sed -nE "s/^$1( staticlib)?://p" "$top/crates.txt"); do
        [ ! -d "$top/crates/$low" ] || { below "$low" && echo "$low"; }
    done | awk '!seen[$0]++'
}

# Proves and builds a library in a folder of its own, with these words of rt more, once those that it stands on are there,
# since runs of rt that share a crate wait for each other.
build_library() {
    local at=$room/apart/$1 low
    mkdir -p -- "$at/crates" && cp -- "$top/HANDLES" "$at" && grep -E "^$1( staticlib)?:" "$top/crates.txt" >"$at/crates.txt" || return
    for low in $(below "$1"); do
        until [ -e "$room/apart/$low/built" ]; do sleep 0.1; done
        cp -al -- "$room/apart/$low/crates/$low" "$at/crates" && grep "^$low:" "$top/crates.txt" >>"$at/crates.txt" || return
    done
    # rt says so itself where it chooses.
    [ $# -eq 1 ] || echo "rt: chose $2 $3 for $1"
    cp -a -- "$top/crates/$1" "$at/crates" && (cd -- "$at/crates/$1" && become_rt lib "${@:2}" </dev/null) && : >"$at/built" &&
        echo "rt: ended $1"
}

# The seconds that a crate takes of processors, from proving.txt. One that isn't there takes none.
seconds() { sed -n "s/^$1 //p" "$top/proving.txt" 2>/dev/null | grep . || echo 0; }

# Prints how each of these libraries, lowest first, is proved: its name, by which command (`nice` where it gives way to the
# others, else `env`), and by how many processes, 0 for as many as rt chooses. The longest chain of seconds sets the pace. A
# library in no chain about as long is proved by two processes, or by one if it is small, which takes less in all; and it
# gives way if what the others leave is enough for it, about a quarter of the seconds that they take beside it.
manners() {
    local low
    for low in "$@"; do echo "$low $(seconds "$low")" $(below "$low"); done | awk '
        {
            for (i = 3; i <= NF; i++) if (upto[$1] < upto[$i]) upto[$1] = upto[$i]
            upto[$1] += $2
            line[NR] = $0
        }
        END {
            for (n = NR; n; n--) {
                count = split(line[n], low)
                own[low[1]] = low[2]
                for (i = 3; i <= count; i++) if (above[low[i]] < above[low[1]] + low[2]) above[low[i]] = above[low[1]] + low[2]
                through[low[1]] = upto[low[1]] + above[low[1]]
                if (most < through[low[1]]) most = through[low[1]]
            }
            for (it in through) {
                processes = !own[it] || through[it] >= most * 0.9 ? 0 : own[it] < 100 ? 1 : 2
                print it, processes && own[it] * 4 <= most - through[it] + own[it] ? "nice" : "env", processes
            }
        }'
}

# Has these libraries built, each by a process that ends where this one does.
build_libraries() {
    local low manner processes words ways
    ways=$(manners "$@") || return
    while read -r low manner processes; do
        words=()
        [ "$processes" -eq 0 ] || words=(--jobs "$processes")
        tied "$manner" "$BASH" "$top/building.bash" build_library "$top" "$name" "$nothing" "$room" "$low" "${words[@]}" &
    done <<<"$ways"
    for low in "$@"; do wait -n || return; done
    for low in "$@"; do
        mv -- "$room/apart/$low/crates/$low/out" "$top/crates/$low" || refuse "crates/$low/out can't be written"
    done
}

# Ends, where rt ended with another status than 0, with what it said.
ended_well() {
    [ "$1" -ne 0 ] || return 0
    printf %s "$said" >&2
    refuse "the sources aren't proved and built, as rt ended with status $1"
}

# Proves and builds by rt: the libraries side by side if nothing of them is there, and then what is wanted, which takes them.
prove() {
    local libraries few=()
    side_by_side='' at_work=() # whether more than one crate is proved at once, and which are
    # The last command of a pipe runs in this shell. Bash 5.2 may tell a status of -1 for a process that it reads by < <( ).
    shopt -s lastpipe
    said='' doing='reading the sources' checked=''
    mapfile -t libraries < <(below "${crate##*/}")
    crates=("${libraries[@]}" "${crate##*/}")
    if [ "${#libraries[@]}" -gt 0 ] && ! (cd -- "$top/crates" && find "${libraries[@]/%//out}" -maxdepth 0 2>/dev/null) | grep -q .; then
        side_by_side=yes
        tied "$BASH" "$top/building.bash" build_libraries "$top" "$name" "$nothing" "$room" "${libraries[@]}" \
            2>&1 {lock}>&- | follow
        ended_well "${PIPESTATUS[0]}"
        side_by_side='' at_work=()
        # What is left of a program is small, and rt says what it is at only where it chooses itself.
        [ "${words[0]}" != run ] || { few=(--jobs 1) at_work=("${crate##*/}") && begin "proving ${crate##*/}$(place "${crate##*/}")"; }
    fi
    (cd -- "$crate" && become_rt "${words[@]}" "${few[@]}" <"$input" 2>&1 {lock}>&-) | follow
    ended_well "${PIPESTATUS[0]}"
}

# Keeps what rt built, if no source was touched since the build began: then it was built of what stands here.
keep() {
    [ -e "$built" ] || refuse 'rt built nothing'
    cp -- "$built" "$room/copy" && sync -- "$room/copy" || refuse "what was built can't be copied"
    [ "$(stamp)" = "$wanted" ] && ! is_touched_since "$room/began" || return 0
    mv -T -- "$room/copy" "$kept-$wanted" || refuse "$kept-$wanted can't be written"
}

# Tells whether it is kept what rt would build of what stands here.
is_kept() {
    wanted=$(stamp) || refuse "the sources can't be read"
    [ -e "$kept-$wanted" ]
}

# Runs rt until no source is touched meanwhile. What was kept of other sources goes then.
build() {
    local round=0
    SECONDS=0 told=0 minute=60
    say "proving and building $what: from nothing, allow 12 minutes on four processors"
    mkdir -p -- "$top/out" && exec {lock}>>"$top/out/lock" || refuse "$top/out can't be written"
    flock -n "$lock" || { say 'waiting for another build' && flock "$lock"; } || refuse "$top/out/lock can't be locked"
    # Nobody else builds now, so a room that is there was left by a build that was killed.
    remove "$top"/out/building.* && mkdir -- "$room" || refuse "$top/out can't be written"
    until : >"$room/began" && is_kept; do
        round=$((round + 1))
        [ "$round" -le 9 ] || refuse 'something changed during each of 9 builds'
        [ "$round" -eq 1 ] || say "something changed in the meantime: once more, after $(elapsed)"
        prove
        keep
    done
    find "$top/out" -maxdepth 1 -name "${kept##*/}-*" ! -name "${kept##*/}-$wanted" -delete
    say "proved and built, after $(elapsed)"
}

if [ "$0" = "${BASH_SOURCE[0]}" ]; then
    set -u
    role=$1 top=$2 name=$3 nothing=$4 room=$5
    shift 5
    "$role" "$@"
    ended=$?
    [[ $role != build_* ]] || exit "$ended"
    command -v rt >/dev/null || refuse "the Rattle kit's command rt is wanted on the path (README.md says where to get the kit)$(without_rt)"
    is_kept || build
    echo "$wanted"
fi
