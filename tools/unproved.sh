# For bin/heapguard, after tools/build.sh: running the sources with nothing proved.
# shellcheck shell=sh disable=SC2154

# NAME FILE: copies a file for the program to read. What can't be read is left out, and the program
# then tells so.
lend() { cat -- "$2" >"$scratch/$1" 2>/dev/null || rm -f "$scratch/$1"; }

compiling() { echo "compiling, unproved, $(since)"; }

try() {
    cd "$folder" || exit
    exec rt try "$@" <&3 2>"$scratch/said"
}

# ARGUMENTS: compiles the sources as they stand, with no proof, and runs what comes of it in a
# folder of its own. Ends with its status, or with 125 where it gave no answer.
unproved() {
    need_rt
    exec 3<&0
    guard
    scratch=$(mktemp -d)
    # Options go behind the files, wherever they stood; behind `--` such a word is the name of one.
    options='' ended=''
    for it; do
        shift
        [ "$it" != -- ] || ended=yes
        case $ended$it in
            --explain | --json | --map | --svg) options="$options $it" ;;
            *) set -- "$@" "$it" ;;
        esac
    done
    # Only a race has threads, of which it is worth saying that nobody looks for races of theirs.
    left_out='/^\(checked\|interpreter\): /d; /^run=ended /d'
    [ "${1-}" = race ] || left_out="$left_out; /^races: not looked for/d"
    case ${1-}/$# in
        check/2 | show/2)
            lend policy "$2"
            set -- "$1" policy
            ;;
        check/3 | replay/3 | state/3)
            lend policy "$2"
            lend trace "$3"
            set -- "$1" policy trace
            ;;
        race/3)
            lend policy "$2"
            set -- race policy "$3"
            ;;
        test/[3-9] | test/[1-9][0-9]*)
            lend policy "$2"
            shift 2
            lent=''
            number=0
            for it; do
                number=$((number + 1))
                lend "trace$number" "$it"
                lent="$lent trace$number"
            done
            # shellcheck disable=SC2086 # a word each
            set -- test policy $lent
            ;;
    esac
    # shellcheck disable=SC2086 # no word where it is empty
    set -- -- "$@" $options
    for it in "$scratch/policy" "$scratch"/trace*; do
        [ ! -f "$it" ] || set -- --data "${it##*/}=$it" "$@"
    done
    say "unproved: compiling the sources as they stand, in a minute or two; no proof is checked"
    answer=0
    watch compiling try "$@" || answer=$?
    case $(tail -n 1 "$scratch/said") in
        "run=ended status="*)
            sed "$left_out" "$scratch/said" >&2
            exit "$answer"
            ;;
    esac
    cat "$scratch/said" >&2
    stop 125 "unproved, and no answer: the lines above say why"
}
