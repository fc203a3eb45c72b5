# For bin/heapguard and bin/build-lib, which set `root` and `called`: what is answered at once, with
# nothing built: help, the version, and words that ask for nothing that there is.
# shellcheck shell=sh disable=SC2154

say() { printf '%s: %s\n' "$called" "$*" >&2; }

# STATUS WORDS: ends with that status, and says why nothing was started.
stop() {
    ending=$1
    shift
    say "$*"
    exit "$ending"
}

# FILE: writes it, after a word where there is one; a failed write is told as heapguard tells it.
answer() {
    { [ $# = 1 ] || printf '%s ' "$2"; cat "$1"; } 2>/dev/null || {
        echo "write fault" >&2
        exit 3
    }
}

# PAGE WORDS: where one of the words, before a word `--`, asks for help or the version, answers it
# by this page of tools/help, and ends.
answer_at_once() {
    page=$1
    shift
    for word; do
        case $word in
            --) return ;;
            -h | --help) answer "$root/tools/help/$page" ;;
            -V | --version) answer "$root/VERSION" heapguard ;;
            *) continue ;;
        esac
        exit 0
    done
}

# WORD: whether it is an option, or would be one.
is_option() { case $1 in -?*) return 0 ;; *) return 1 ;; esac; }

bad_words() { stop 125 "$1; $called --help tells what there is"; }
