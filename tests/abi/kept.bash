# What is kept of the last release, in tests/abi: its header, the table of that by table.awk, and programs that were written for it.
# tests/abi/keep writes it. What reads this sets `cc`, a compiler and what it is always told, and `room`, a folder for what is made.

kept_programs=(tests/c/{fields.c,trying.h} examples/{toy.c,port.c,port.h,wire.h,drives.h,toy.out})

# Prints the table of the mscp.h in this folder, in the order of the alphabet.
table_of() {
    awk -f tests/abi/table.awk "$1/mscp.h" >"$room/table.c" && "${cc[@]}" -std=c11 -I"$1" "$room/table.c" -o "$room/table" &&
        "$room/table" | LC_ALL=C sort
}

# Prints what the second table lacks of the first, or has changed. It may have more: numbers, calls and structs. No struct says
# that it may grow, so none of those that were there has a new field. Of what is kept the version alone may be another.
broken() {
    awk '/^#/ || /^number MSCP_VERSION / { next }
        FILENAME == ARGV[1] { kept[$0]; if ($1 == "struct") structs[$2]; next }
        { today[$0]; owner = $1 }
        sub(/\..*/, "", owner) && (owner in structs) && !($0 in kept) { print "new: " $0 }
        END { for (it in kept) if (!(it in today)) print "gone: " it }' "$1" "$2"
}

# Prints the symbols of the shared object of this table, each with the version from which on a library has it: that of this list, or else
# this one. A call that is inline in the header is one of its symbols too.
symbols_of() {
    awk -v version="$3" 'FILENAME == ARGV[1] { kept[$1] = $2; next }
        /^(call|inline) / { match($0, /mscp_[a-z_]+\(/); it = substr($0, RSTART, RLENGTH - 1) "@Base"; print " " it, it in kept ? kept[it] : version }' \
        "$2" "$1" | LC_ALL=C sort
}

# The names of the kept calls that this kind of library has: call, or inline for those that the shared object alone has.
kept_calls() { sed -nE "s/^($1) [^(]*[ *](mscp_[a-z_]+)\(.*/\2/p" tests/abi/table | sort; }

# Compiles a kept program of these files for the kept header, and links it with this library, which it finds where it lies.
compile_kept() {
    local to=$1 library=$2
    "${cc[@]}" -std=c99 -O1 -Itests/abi "${@:3}" "$library" -Wl,-rpath,"$(dirname -- "$library")" -o "$room/$to"
}

# The kept programs do with this library, an archive or a shared object, what they did.
kept_programs_run() {
    compile_kept kept_room "$1" tests/abi/room.c && "$room/kept_room" && compile_kept kept_fields "$1" tests/abi/fields.c &&
        "$room/kept_fields" && compile_kept kept_toy "$1" tests/abi/{toy,port}.c &&
        { echo 'block 0 of unit 0 greets the machine' && head -c 32768 /dev/zero; } | head -c 32768 >"$room/kept_image" &&
        timeout 60 "$room/kept_toy" "$room/kept_image" | diff - tests/abi/toy.out
}
