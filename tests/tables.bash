# The tables of tests/scripts, which tests/program runs. It sets `program`, and the folder `room`.

# The program ends with this status, having written just this on standard output and on standard error: of a script, which is
# as printf has it, with the words behind it. So that a row takes one process, the shell compares.
runs() {
    local wanted=$1 out=$2 err=$3 script=$4 status text
    shift 4
    printf %b "$script" >"$room/script"
    "$program" "$@" <"$room/script" >"$room/out" 2>"$room/err"
    status=$?
    ! IFS= read -rd '' text <"$room/out" && [ "$text" = "$out" ] && ! IFS= read -rd '' text <"$room/err" &&
        [ "$text" = "$err" ] && [ "$status" -eq "$wanted" ]
}

# Each row of a table passes a test, of what stands before the bar and of what stands behind it. The latter is put where ...
# stands in the row `each` above it, which goes on in rows `and`.
each_row() {
    local test=$1 each=... before behind whole rows=0
    while IFS='|' read -r before behind; do
        before=${before%"${before##*[! ]}"} behind=${behind# }
        case $before in
            '' | '#'*) ;;
            each) each=$behind ;;
            and) each+=$behind ;;
            *)
                whole=${each/.../"$behind"} rows=$((rows + 1))
                "$test" "$before" "$whole" || { echo "not so: $before | $behind" && return 1; }
                ;;
        esac
    done <"$2"
    [ "$rows" -gt 0 ]
}

script_has_fault() { runs 1 '' "$1"$'\n' "$2"; }

packet_has_fault() { runs 1 '' "$1"$'\n' '' packet "$2"; }

# The one command of a script has this figure.
has_figure() { runs 0 $'queued 1\n'"$1"$'\nsteps 0 seeks 0 pending 1\n' '' "$2"; }

faults_of_scripts_are_told() { each_row script_has_fault tests/scripts/faults; }

packet_faults_are_told() { each_row packet_has_fault tests/scripts/packet_faults; }

budgets_are_read() { each_row has_figure tests/scripts/budgets; }

packets_are_shown() {
    local line word='' packets=0
    while read -r line; do
        case $line in
            '' | '#'*) ;;
            'command '* | 'end '*)
                packets=$((packets + 1))
                runs 0 "$line"$'\n' '' '' packet "$word" || { echo "not so: $word" && return 1; }
                ;;
            *) word=$line ;;
        esac
    done <tests/scripts/packets
    [ "$packets" -gt 0 ]
}

# Each script of a table has the report that stands behind four blanks between its lines. No script of it ends with a line
# feed.
reports_are() {
    local line script='' report='' scripts=0
    while IFS= read -r line; do
        case $line in
            '    '*) report+=${line#    }$'\n' ;;
            *) script+=$line'\n' ;;
        esac
        [[ $line == '    steps '* ]] || continue
        scripts=$((scripts + 1))
        runs 0 "$report" '' "${script%'\n'}" || { diff "$room/out" - <<<"${report%$'\n'}"; return 1; }
        script='' report=''
    done <"$1"
    [ "$scripts" -gt 0 ] && [ -z "$script$report" ]
}

reports_are_written() { reports_are tests/scripts/reports; }

reports_of_two_are_written() { reports_are tests/scripts/reports_of_two; }
