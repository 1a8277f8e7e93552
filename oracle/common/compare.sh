# shellcheck shell=sh disable=SC2154
# What the scripts that compare have in common; they read it in. Each lies in
# the folder of its harness. They set `silent` (an awk pattern for the steps
# that print nothing) before they judge.

here=$(CDPATH='' cd -- "$(dirname -- "$0")" && pwd)
harness=$(basename -- "$here")
oracle=$(dirname -- "$here")
root=$(dirname -- "$oracle")
# shellcheck source-path=SCRIPTDIR
. "$oracle/common/sources.sh"

# The comment at the script's head says it all.
usage() {
    sed -n '2,/^$/{ s/^#//; s/^ //; p; }' "$0" >&2
    exit 2
}

# Takes the port's program, builds the oracle and makes a temporary folder.
prepare() {
    port=$1
    command -v -- "$port" >/dev/null || {
        printf 'compare: cannot run %s\n' "$port" >&2
        exit 2
    }
    "$oracle/build" "$harness"
    work=$(mktemp -d)
    trap 'rm -rf -- "$work"' EXIT
    trap 'exit 1' HUP INT TERM
}

# Prints the first line at which the two outputs part, the line of the list
# that it answers, and both answers.
first_difference() {
    awk -v port="$work/port" -v list="$work/list" -v silent="$silent" '
        function list_line(answer,  step, line) {
            while (answer > 0 && (getline step < list) > 0) {
                line++
                if (step !~ silent) answer--
            }
            return answer ? "its end" : "line " line ", " step
        }
        function tell(at, rust, other) {
            told = 1
            printf "output line %d (list: %s): Rust %s, port %s\n",
                at, list_line(at), rust, substr(other, 1, 60)
            exit
        }
        (getline line < port) <= 0 { tell(NR, $0, "(nothing)") }
        # The added empty string makes awk compare text, not numbers.
        line "" != $0 "" { tell(NR, $0, line) }
        END {
            if (told) exit
            if ((getline line < port) > 0) tell(NR + 1, "(nothing)", line)
            print "no line differs, but the ends of the outputs do"
        }' "$work/rust"
}

# The list and both outputs outlive the temporary folder.
differ() {
    cp -- "$work/list" "$out/difference.steps"
    cp -- "$work/rust" "$out/difference.rust"
    cp -- "$work/port" "$out/difference.port"
    printf 'DIFFERENCE: %s\n%s\nlist: %s\n' "$1" "$2" "$out/difference.steps" >&2
    exit 1
}

# What a program of the oracle says beside its output is of no matter unless it
# fails.
failed() {
    cat -- "$1" >&2
    exit 1
}

# Runs both sides on the list. Only what is printed is laid down, so the
# port's status counts no further than to tell that it ran and ended by itself.
judge() {
    "$out/oracle_$harness" <"$work/list" >"$work/rust" 2>"$work/said" || failed "$work/said"
    status=0
    "$port" <"$work/list" >"$work/port" || status=$?
    cmp -s -- "$work/rust" "$work/port" || differ "$1" "$(first_difference)"
    [ "$status" -lt 126 ] || differ "$1" "the port ended with status $status"
}

# Writes the list that the arguments say, and counts of what stands in it.
generate() {
    "$out/oracle_${harness}_generate" "$@" >"$work/list" 2>"$work/counts" || failed "$work/counts"
}

# Judges the list that the arguments say by its name.
compare_list() {
    generate "$@"
    judge "$list"
    cat -- "$work/counts" >>"$work/all_counts"
    total=$((total + 1))
}

# Prints the sums of the counts in all lists together, in their order.
sum_counts() {
    awk -F ': ' -v lists="$total" -v counted="$counted" '
        $1 !~ counted { next }
        !($1 in sum) { order[++names] = $1 }
        { sum[$1] += $2 }
        END {
            printf "%d lists", lists
            for (at = 1; at <= names; at++) printf ", %s %d", order[at], sum[order[at]]
            print ", 0 differences"
        }' "$work/all_counts"
}

# All of a script whose lists come in families. It takes the script's
# arguments, and the script sets `counted` (an awk pattern for the counts that
# are summed up), and `lists` and `steps` (their defaults) as well. No step of
# such a list is silent: an empty pattern would match, and this one never does.
compare_families() {
    first=1 silent='^$'
    while getopts s:n:k: option; do
        case $option in
        s) first=$OPTARG ;;
        n) lists=$OPTARG ;;
        k) steps=$OPTARG ;;
        *) usage ;;
        esac
    done
    shift $((OPTIND - 1))
    [ $# -eq 1 ] || usage
    case $first$lists$steps in
    *[!0-9]*) usage ;;
    esac
    prepare "$1"

    total=0
    list='fixed list'
    compare_list fixed
    for family in $("$out/oracle_${harness}_generate" families); do
        seed=$first
        while [ "$seed" -lt $((first + lists)) ]; do
            list="family $family, seed $seed, $steps steps"
            compare_list "$family" "$seed" "$steps"
            seed=$((seed + 1))
        done
    done
    sum_counts
}
