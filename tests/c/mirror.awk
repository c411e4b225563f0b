# Prints a C file that compiles only where mscp.h says what the sources say: each struct with its fields, their places
# and types; each call with its parameters; and the numbers of statuses, pickers, connections, opcodes, stages, marks and of the
# version. tests/library names the sources.
#
# A call's handle is const where the contract has the clause `same`. Types are compared by _Generic. A field that only
# the header has is one without an initializer, of which the compiler warns, as of an enumerator that a switch lacks. An inline
# call tells a count in 64 bits, and what the sources call a reset isn't named as the call of that name.

BEGIN {
    split("SentOut sent PacketOut packet UpcomingOut upcoming ReportOut report FigureOut waiting HolderOut holder " \
        "NewsOut news Limits limits UnitIn unit HardwareIn hardware ActionOut action StateOut state VolumeOut volume " \
        "MediumIn medium HeardOut heard Asked asked Watch watch CommandIn command EndOut end", words, " ")
    for (i = 1; i in words; i += 2)
        name_of[words[i]] = "mscp_" words[i + 1]
    split("u8 uint8_t u16 uint16_t u32 uint32_t u64 uint64_t usize size_t i32 int32_t i64 int64_t", words, " ")
    for (i = 1; i in words; i += 2)
        type_of[words[i]] = words[i + 1]
    split("look why settings port_look port_why port_settings", words, " ")
    for (i = 1; i in words; i++)
        counts["mscp_" words[i]] = 1
    print "#include \"mscp.h\""
    print "#define IS(what, type) _Static_assert(_Generic(what, type: 1, default: 0), #what)"
}

# What a file is about: a host, a port, or a controller.
function kind_of_file() {
    return FILENAME ~ /\/driv/ ? "_driver" : FILENAME ~ /\/host/ ? "_host" : FILENAME ~ /\/port/ ? "_port" : ""
}

# The struct of C for one of the sources, by the file for a handle.
function struct_of(name) {
    if (name == "Handle")
        return "struct mscp" kind_of_file()
    return "struct " name_of[name]
}

# The type of C for one of the sources.
function in_c(type) {
    return type in type_of ? type_of[type] : type == "*mut u8" ? "void *" : struct_of(type)
}

# The parameters of C for one of the sources, of a call that changes its handle or leaves it the same.
function parameters_of(type, same,   fixed) {
    fixed = type !~ /^&mut/ || (type == "&mut Handle" && same) ? "const " : ""
    if (type !~ /^&/)
        return in_c(type)
    if (sub(/^&(mut )?\[/, "", type) && sub(/\]$/, "", type))
        return fixed in_c(type) " *, size_t"
    sub(/^&(mut )?/, "", type)
    return fixed in_c(type) " *"
}

function number_is(name, number) {
    print "_Static_assert(MSCP_" name " == " number ", \"MSCP_" name "\");"
}

# A name of an enum, which a switch over that enum then has.
function enumerator_is(enum, name, number) {
    number_is(name, number)
    cases[enum] = cases[enum] " case MSCP_" name ":"
}

FILENAME ~ /VERSION$/ { split($0, words, "."); number_is("VERSION", words[1] * 65536 + words[2] * 256 + words[3]) }

# ---- structs

/^pub struct [A-Za-z]+ \{$/ && (($3 in name_of) || $3 == "Handle") {
    in_struct = struct_of($3)
    mirror = in_struct
    sub(/struct mscp/, "struct source_mscp", mirror)
    fields = checks = zeros = ""
    next
}
in_struct != "" && /^\}$/ {
    print mirror " {" fields " };" checks
    print "_Static_assert(sizeof(" in_struct ") == sizeof(" mirror "), \"" in_struct "\");"
    all = mirror
    sub(/struct source/, "all_of", all)
    print "const " in_struct " " all " = {" zeros "};"
    in_struct = ""
    structs++
}
in_struct != "" && /^    pub(\(crate\))? [a-z_]+: / {
    sub(/^    pub(\(crate\))? /, "")
    sub(/,$/, "")
    field = type = $0
    sub(/: .*/, "", field)
    sub(/[^:]*: /, "", type)
    if (type ~ /^\[/) {
        count = type
        gsub(/.*; |\]/, "", count)
        gsub(/\[|;.*/, "", type)
        fields = fields " " in_c(type) " " field "[" count "];"
        pointer = in_c(type) " (*)[" count "]"
        zeros = zeros "{0}, "
    } else {
        fields = fields " " in_c(type) " " field ";"
        pointer = in_c(type) " *"
        zeros = zeros "0, "
    }
    checks = checks "\nIS(&((" in_struct " *)0)->" field ", " pointer ");" \
        "\n_Static_assert(offsetof(" in_struct ", " field ") == offsetof(" mirror ", " field "), " \
        "\"" in_struct "." field "\");"
}

# ---- calls

/^pub extern "C" fn / { call = ""; in_call = 1 }
in_call && /^\{$/ {
    same = call ~ /ensures same \{ handle\.new/
    result = name = call
    sub(/^pub extern "C" fn /, "", name)
    sub(/\(.*/, "", name)
    sub(/^[^)]*\) -> /, "", result)
    sub(/ .*/, "", result)
    sub(/^[^(]*\( */, "", call)
    sub(/\).*/, "", call)
    gsub(/  +/, " ", call)
    sub(/, *$/, "", call)
    list = ""
    for (i = split(call, words, ", "); i > 0; i--) {
        sub(/.*: /, "", words[i])
        list = parameters_of(words[i], same) (list == "" ? "" : ", " list)
    }
    rest = " (*)(" (list == "" ? "void" : list) ")"
    print "IS(&" name ", " in_c(result) rest ");"
    if (sub(/_at$/, "", name)) # the inline one has the same parameters
        print "IS(&" name ", " (name in counts ? "int64_t" : in_c(result)) rest ");"
    in_call = 0
    calls++
}
in_call { call = call $0 " " }

# ---- numbers

/^pub\(crate\) const [A-Z_]+: i32 = -?[0-9]+;$/ {
    sub(/:/, "", $3)
    sub(/;/, "", $6)
    enumerator_is("status", $3, $6)
}
/^ +[0-9]+ => Some\(Policy::[A-Za-z]+\),$/ {
    picker = $3
    gsub(/Some\(Policy::|\),/, "", picker)
    enumerator_is("picker", toupper(picker), $1)
}
/^ +[0-9]+ => Some\(Connection::[A-Za-z]+\),$/ {
    connection = $3
    gsub(/Some\(Connection::|\),/, "", connection)
    enumerator_is("connection", "CONNECTION_" toupper(connection), $1)
}
/^ +[0-9]+ => Some\(Bus::[A-Za-z]+\),$/ {
    bus = $3
    gsub(/Some\(Bus::|\),/, "", bus)
    enumerator_is("bus", "BUS_" toupper(bus), $1)
}
/^ +[0-9]+ => (Some\(Outcome::[A-Za-z]+\)|failed\(status\)),$/ {
    outcome = $3
    gsub(/Some\(Outcome::|\(status\)|\)|,/, "", outcome)
    enumerator_is("outcome", "OUTCOME_" toupper(outcome), $1)
}
/^const [A-Z]+: u8 = [0-9]+;$/ && FILENAME ~ /port_telling/ {
    sub(/:/, "", $2)
    sub(/;/, "", $5)
    enumerator_is("action_kind", "ACTION_" $2, $5)
}
/^ +Stage::[A-Za-z]+(\(_\))? => [0-9]+,$/ {
    stage = $1
    gsub(/Stage::|\(_\)/, "", stage)
    sub(/,/, "", $3)
    enumerator_is("stage", "STAGE_" toupper(stage), $3)
}
/^pub const [A-Z_]+: u8 = [0-9]+;$/ && FILENAME ~ /opcodes/ && !/SIMH/ {
    sub(/:/, "", $3)
    sub(/;/, "", $6)
    enumerator_is("opcode", $3, $6)
}
/^pub const ROOM: u64 = 0x[0-9A-F_]+;$/ {
    gsub(/[_;]/, "", $6)
    number_is(toupper(substr(kind_of_file(), 2)) (kind_of_file() == "" ? "" : "_") "ROOM", "UINT64_C(" $6 ")")
    marks++
}

END {
    for (enum in cases)
        print "int is_" enum "(enum mscp_" enum " it)\n{\n    switch (it) {\n   " cases[enum] \
            "\n        return 1;\n    }\n    return 0;\n}"
    if (structs < 16 || calls < 45 || marks != 4 || length(cases["picker"]) == 0 || length(cases["opcode"]) == 0 ||
        length(cases["connection"]) == 0 || length(cases["bus"]) == 0 || length(cases["outcome"]) == 0 ||
        length(cases["action_kind"]) == 0 || length(cases["stage"]) == 0) {
        print "mirror.awk: " structs " structs, " calls " calls, " marks " marks" >"/dev/stderr"
        exit 1
    }
}
