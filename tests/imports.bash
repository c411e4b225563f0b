# Which files of specs/ a contract stands on, by the imports in the sources. tests/definitions prints them, and tests/pages
# compares docs/READING.md with them.

# The file below crates/ that has the function of this name, and no other: the macros' and tests' files aside.
home() { grep -lE "^ *pub (extern \"C\" )?fn $1[(<]" -r crates/*/src --include='*.rt' | grep -v /tests; }

# The contract of this function of a file: the lines from its name to its body.
contract() {
    awk -v name="$1" '$0 ~ "^ *pub (extern \"C\" )?fn " name "[(<]" { inside = 1 } inside && /^ *\{\}?$/ { exit } inside' "$2"
}

# The specs files, as CRATE/FILE, that the lines of imports on standard input name. What declared has are types of the code.
imported() {
    sed -nE 's/^(pub )?(ghost )?use Rattle\.(mscp[a-z_]*)\.specs\.([A-Z][A-Za-z]*)[. ;].*/\3\/\4/p'
}

# The imports of a file. Of what a crate's code takes in common, those lines of specs/Common that have its words.
imports() {
    local line words
    grep -E '^ *ghost use Rattle\.mscp' "$1" | sed 's/^ *//' | while IFS= read -r line; do
        if [[ $line != *.specs.Common.* ]]; then
            echo "$line"
            continue
        fi
        words=${line##*\{} words=${words%\}*}
        awk -v words="$words" -F '[{}]' 'BEGIN { count = split(words, list, ", "); for (i = 1; i <= count; i++) wanted[list[i]] = 1 }
            /^pub use/ { count = split($2, list, ", "); for (i = 1; i <= count; i++) if (list[i] in wanted)
                print "ghost use" substr($1, 8) "{" list[i] "};" }' "${1%%/src/*}/specs/Common.antt"
    done
}

# The specs files of which a contract has a word, from the imports of its file.
roots() {
    local text line words word
    text=$(contract "$1" "$2" | tr -c '[:alnum:]_.' ' ')
    imports "$2" | while IFS= read -r line; do
        case $line in
            *' as '*) words=${line##* as } words=${words%;} ;;
            *) words=${line##*\{} words=${words%\}*} words=${words//,/} ;;
        esac
        for word in $words; do
            [[ " $text " != *" $word"[\ .]* ]] || { imported <<<"$line" && break; }
        done
    done
}

# These files and all that they import, and so on, sorted.
closure() {
    local all=$* more
    while :; do
        more=$(for file in $all; do
            echo "$file"
            imported <"crates/${file%/*}/specs/${file#*/}.antt"
        done | sort -u)
        [ "$more" != "$all" ] || break
        all=$more
    done
    echo "$all"
}

# What the contracts of these functions stand on. `mscp_*` stands for all calls of the C library.
needed() {
    local name names=() file
    for name in "$@"; do
        if [ "$name" = 'mscp_*' ]; then
            mapfile -t -O "${#names[@]}" names < <(sed -nE 's/^pub extern "C" fn (mscp_[a-z_]+).*/\1/p' crates/mscp_c/src/*.rt)
        else
            names+=("$name")
        fi
    done
    closure $(for name in "${names[@]}"; do
        file=$(home "$name")
        [ -f "$file" ] && roots "$name" "$file" || echo "$name/isn't found" >&2
    done | sort -u)
}
