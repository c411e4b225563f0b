# Prints a C file of mscp.h that prints the table of that header, a line for each
#
#     number NAME VALUE                 macro of a number
#     ENUM NAME VALUE                   name of an enum
#     struct NAME SIZE ALIGNMENT
#     NAME.FIELD TYPE OFFSET SIZE       field of a struct
#     call RESULT NAME(TYPES)           call that the archive has, and so the shared object
#     inline RESULT NAME(TYPES)         call that the shared object alone has

BEGIN {
    print "#include \"mscp.h\"\n#include <stdio.h>"
    print "#define ROW(kind, value) printf(\"%s %llu\\n\", kind, (unsigned long long)(value))"
    print "#define PLACED(of, what, a, b) printf(\"%s %llu %llu\\n\", of what, (unsigned long long)(a), (unsigned long long)(b))"
    print "int main(void)\n{"
}

# What stands in comments says nothing here.
{
    line = $0
    text = ""
    while (line != "") {
        if (in_comment) {
            end = index(line, "*/")
            if (end == 0)
                break
            line = substr(line, end + 2)
            in_comment = 0
        } else {
            start = index(line, "/*")
            text = text (start == 0 ? line : substr(line, 1, start - 1))
            if (start == 0)
                break
            line = substr(line, start + 2)
            in_comment = 1
        }
    }
    sub(/ +$/, "", text)
}

text ~ /^#define MSCP_[A-Z_]+ (UINT[0-9]+_C\(0x[0-9A-F]+\)|[0-9]+u)$/ {
    split(text, words, " ")
    print "    ROW(\"number " words[2] "\", " words[2] ");"
    numbers++
}

# ---- enums and structs

text ~ /^(enum|struct) mscp[a-z_]* \{$/ {
    split(text, words, " ")
    inside = words[1]
    name = words[2]
    if (inside == "struct") {
        print "    PLACED(\"struct \", \"" name "\", sizeof(struct " name "), offsetof(struct { char c; struct " name " it; }, it));"
        structs++
    }
    next
}
text == "};" { inside = "" }

inside == "enum" && text ~ /^ +MSCP_[A-Z_]+ = / {
    split(text, words, " ")
    print "    printf(\"" name " " words[1] " %d\\n\", (int)" words[1] ");"
    numbers++
}

inside == "struct" && text ~ /;$/ {
    type = text
    sub(/^ +(MSCP_ALIGNED )?/, "", type)
    sub(/(\[[A-Z0-9_a-z]+\])?;$/, "", type)
    match(type, /[a-z_]+$/)
    field = substr(type, RSTART)
    type = substr(type, 1, RSTART - 1)
    sub(/ +$/, "", type)
    whole = "struct " name
    print "    PLACED(\"" name "." field "\", \" " type "\", offsetof(" whole ", " field "), sizeof(((" whole " *)0)->" field "));"
    fields++
}

# ---- calls

inside == "" && text ~ /^[a-zA-Z].*[ *]mscp_[a-z_]+\(/ {
    inside = "call"
    call = ""
}
inside == "call" { call = call " " text }
inside == "call" && text ~ /\)/ {
    kind = call ~ /MSCP_INLINE/ ? "inline" : "call"
    gsub(/MSCP_(MUST_USE|INLINE)/, "", call)
    gsub(/ +/, " ", call)
    sub(/^ /, "", call)
    sub(/\).*/, "", call)
    list = call
    sub(/\(.*/, "", call)
    sub(/^[^(]*\(/, "", list)
    types = ""
    count = split(list, words, ", ")
    for (i = 1; i <= count; i++) {
        if (words[i] != "void")
            sub(/ ?[a-z_]+$/, "", words[i])
        types = types (i == 1 ? "" : ", ") words[i]
    }
    print "    puts(\"" kind " " call "(" types ")\");"
    inside = ""
    calls++
}

END {
    print "    return 0;\n}"
    if (numbers < 130 || structs < 17 || fields < 80 || calls < 80) {
        print "table.awk: " numbers " numbers, " structs " structs, " fields " fields, " calls " calls" >"/dev/stderr"
        exit 1
    }
}
