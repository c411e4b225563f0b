# Follows the links of pages: tests/pages in the sources, tests/install in what is installed, and tests/release in each release.

# The headings of a page, as links name them.
anchors() {
    sed -E '/^(```|~~~)/,/^(```|~~~)$/d' "$1" | sed -nE 's/^#+ (.*)/\L\1/p' | sed 's/[^[:alnum:]_ -]//g; s/ /-/g'
}

# Prints each link of this page that leads to no file, or to no heading of it where it names one. Of headings the changes tell as they
# were once called.
leads_nowhere() {
    local link file
    for link in $(grep -oE '\]\([^):]+\)' "$1" | sed 's/^..//; s/.$//'); do
        file=$(dirname -- "$1")/${link%%#*}
        [[ $link != '#'* ]] || file=$1
        [ -e "$file" ] && { [[ $link != *'#'* || $1 == */CHANGELOG.md ]] || anchors "$file" | grep -qxF -- "${link#*#}"; } ||
            echo "$1: $link leads nowhere"
    done
}

# Each link of the pages below a folder leads somewhere, and there are more than so many pages.
pages_lead_somewhere() {
    local page pages=0
    while IFS= read -r page; do
        leads_nowhere "$page"
        pages=$((pages + 1))
    done < <(find "$1" -name '*.md') >"$room/nowhere"
    [ ! -s "$room/nowhere" ] && [ "$pages" -gt "$2" ] || { cat -- "$room/nowhere" && return 1; }
}
