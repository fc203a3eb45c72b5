# For bin/heapguard and bin/build-lib, after tools/words.sh. They set `root`, `called` (the script),
# `crate` (what it builds) and `program` (the file that comes of it), and have `finish`, which puts
# that file in its place. Here: whether it is built from the sources and the kit as they stand, and
# proving it in a copy of the crates that it stands on, or in the tree itself where the script then
# sets `here`: by the kit's gate, `rt ci`, unless the script has a `prove` and a `progress` of its own. The
# gate proves crates side by side, and keeps each on this machine as soon as it is proved.
# shellcheck shell=sh disable=SC2154
# shellcheck disable=SC2034 # for tools/unproved.sh
folder=$root/crates/$crate
made=$(dirname -- "$program")
record=$made/made_from # what the program was made from; its time is that before the build
log=$made/log          # what the last build said
job='' clock='' scratch='' copy='' began=''
here='' # whether to prove in the tree itself
takes='25 to 30 minutes on quiet cores, and longer on busy ones'
again='only what is new or has changed is proved'

need_rt() {
    command -v rt >/dev/null 2>&1 || stop 127 "the command rt of the Rattle kit is not on the PATH"
}

# shellcheck source=tools/closure.sh
. "$root/tools/closure.sh"

# The lines of crates.txt for the crate and for all that it stands on, lowest first.
lines() { lines_below "$root/crates.txt" "$crate"; }

crates() { lines | sed 's/[ :].*//'; }

# What the program is made from besides its sources: the kit, and these lines. With no rt that runs,
# the kit that was recorded.
made_from() {
    rt version 2>/dev/null || sed 1q "$record" 2>/dev/null || true
    lines
}

# FILE: one of the sources, definitions and proofs of these crates, or of their folders, that is
# newer; nothing where none is.
newer() (
    cd "$root/crates" || exit
    # shellcheck disable=SC2046 # the names of crates have no blanks
    find $(crates) -mindepth 1 \( -name out -o -name must-fail -o -name more-edits \) -prune -o \
        \( -type d -o -name '*.rt' -o -name '*.antt' \) -newer "$1" -print -quit 2>/dev/null \
        || echo "a crate is missing"
)

# The gate leaves a program without a record: then its own time counts, and its kit isn't known.
is_fresh() {
    [ -f "$program" ] || return 1
    if [ -f "$record" ]; then
        [ "$(made_from)" = "$(cat "$record")" ] && [ -z "$(newer "$record")" ]
    else
        [ -z "$(newer "$program")$(find "$root/crates.txt" -newer "$program")" ]
    fi
}

# TELL: says on a terminal, each second, what this command writes, as far as a line of it has room.
tick() {
    # shellcheck disable=SC2046 # two numbers
    set -- "$1" $(stty size <&2 2>/dev/null)
    [ "${3:-0}" -gt 1 ] || set -- "$1" 24 80
    while kill -0 $$ 2>/dev/null; do
        printf '\r%.*s\033[K' "$(($3 - 1))" "$("$1")" >&2
        sleep 1
    done
}

hush() {
    [ -n "$clock" ] || return 0
    kill "$clock" 2>/dev/null || true
    wait "$clock" 2>/dev/null || true
    clock=''
    printf '\r\033[K' >&2
}

# How many seconds it is since the first command began that was watched; and as a clock's.
passed() { echo $(($(date +%s) - began)); }
since() { printf '%d:%02d' $(($(passed) / 60)) $(($(passed) % 60)); }

# TELL COMMAND: runs the command and gives its status. It runs beside this shell, so that a signal
# to the shell ends both at once.
watch() {
    tell=$1 began=${began:-$(date +%s)}
    shift
    "$@" &
    job=$!
    if [ -t 2 ]; then
        tick "$tell" &
        clock=$!
    fi
    ended=0
    wait "$job" || ended=$?
    job=''
    hush
    return "$ended"
}

# STATUS: ends what runs beside, and says what is left of it.
interrupted() {
    trap '' INT TERM HUP
    if [ -n "$job" ]; then
        # (the gate and all that it started; or a command that has no session of its own)
        kill -- "-$job" 2>/dev/null || kill "$job" 2>/dev/null || true
        wait "$job" 2>/dev/null || true
    fi
    hush
    stop "$1" "stopped${copy:+: what is proved so far the kit keeps where it can, and the next call goes on from there}"
}

# Removes what is of this call alone. (What was ended just now may still be writing there.)
clean() {
    rm -f "$record.$$" "$program.$$"
    for _ in 1 2 3 4 5; do
        [ -e "$scratch" ] || return 0
        rm -rf "$scratch" 2>/dev/null || sleep 0.5
    done
}

# What runs beside ends at a signal, and what is of this call alone when this shell ends.
guard() {
    trap 'interrupted 129' HUP
    trap 'interrupted 130' INT
    trap 'interrupted 143' TERM
    trap clean EXIT
}

# CRATE: how much there is of it to prove, in bytes of its sources, definitions and proofs.
weight() {
    find "$root/crates/$1" \( -name out -o -name must-fail -o -name more-edits \) -prune -o \
        \( -name '*.rt' -o -name '*.antt' \) -exec cat {} + 2>/dev/null | wc -c
}

# Makes the copy, which is the top of a repository to the kit: the crates that are to be proved,
# without their must-fail edits, which the gate would try too, and without what was built in the tree.
copy_crates() {
    mkdir "$copy" "$copy/.git" "$copy/crates" || return
    cp "$root/HANDLES" "$copy/" || return
    for it in $(crates); do
        lines | grep "^${it}[ :]" >>"$copy/crates.txt" || return
        mkdir "$copy/crates/$it" || return
        for part in "$root/crates/$it"/*; do
            case ${part##*/} in
                out | must-fail | more-edits) ;;
                *) cp -R "$part" "$copy/crates/$it/" || return ;;
            esac
        done
    done
    chmod -R u+w "$copy"
}

# COMMAND: becomes it, in a session of its own, so that what it starts can be ended with it, and
# with a folder for what is temporary, of which a command that was ended leaves much. (As root the
# gate runs the program as nobody, who has to get there.) With GIVE_WAY, 1 to 19, it gives way to what
# else runs: the session is what Linux shares the processor out to, where it goes by sessions.
become() {
    mkdir -p "$scratch/tmp" || exit
    chmod 711 "$scratch" "$scratch/tmp" || exit
    [ -n "${GIVE_WAY-}" ] || exec env TMPDIR="$scratch/tmp" setsid "$@" </dev/null >>"$log" 2>&1
    # shellcheck disable=SC2016 # of the shell that it begins
    exec env TMPDIR="$scratch/tmp" setsid nice -n "$GIVE_WAY" sh -c '
        { echo "$GIVE_WAY" >/proc/self/autogroup; } 2>/dev/null || true
        exec "$@"' sh "$@" </dev/null >>"$log" 2>&1
}

prove() {
    cd "$copy" || exit
    become rt ci
}

# Of how many crates how many are proved, as the gate's log tells, in what time; and about how long
# the others take, by how much there was of those that weren't kept from earlier.
progress() {
    awk -v since="$(since)" -v passed="$(passed)" '
        FNR == NR { of++; much[$1] = $2; left += $2; next }
        $1 != "rt:" || !($2 in much) || ($2 in told) { next }
        $3 == "proved" && NF == 3 { did += much[$2]; proved++; told[$2] }
        $3 == "is" && $4 == "kept:" { proved++; told[$2] }
        $3 == "NOT" { failed++; told[$2] }
        $2 in told { left -= much[$2] }
        END {
            printf "%d of %d crates proved in %s", proved, of, since
            if (failed) printf ", %d failed", failed
            still = did ? int(left * passed / did / 60) + 1 : 0
            if (still && passed >= 60) printf ", about %d minutes still", still
        }' "$scratch/weights" "$log"
}

# Says what failed, by the gate's log, and ends: where the crate isn't proved and why, or what else
# was said of it last. The log then names files as they stand in the tree.
failed() {
    if [ "$copy" != "$root" ]; then
        awk -v copy="$copy/" -v root="$root/" '
            {
                while (at = index($0, copy))
                    $0 = substr($0, 1, at - 1) root substr($0, at + length(copy))
                print
            }' "$log" >"$scratch/log" && cat "$scratch/log" >"$log"
    fi
    # (`rt lib` begins what it says of a crate by one of the first two, and ends with the one that failed)
    name=$(awk '
        $1 " " $2 " " $3 == "rt: chose --jobs" { name = $NF }
        $1 == "rt:" && $3 " " $4 == "begins with" { name = $2; sub(/:$/, "", name) }
        $1 == "rt:" && $3 " " $4 == "NOT PROVED" { name = $2; exit }
        END { print name }' "$log")
    awk -v ending="rt: $name NOT PROVED" '
        /^== |^rt: chose --jobs|^rt: [^ ]+: begins with/ { reasons = 0; lines = 0; next }
        $0 == ending { exit }
        /^(note: )?[^ ]+:[0-9]+:[0-9]+: |^error|^fn .*: (no proof|not proved)/ {
            if (reasons < 3 && !/which is not proved$/) reason[++reasons] = $0
        }
        { line[lines++ % 3] = $0 }
        END {
            for (at = 1; at <= reasons; at++) print reason[at]
            if (!reasons)
                for (at = lines > 3 ? lines - 3 : 0; at < lines; at++) print line[at % 3]
        }' "$log" >&2
    stop 125 "not built${name:+, since $name failed}; all of it is in $log"
}

# FILE: puts it where the program is to be, all at once and as old as the record.
place() {
    cp "$1" "$program.$$" && touch -r "$record.$$" "$program.$$" && mv -f "$program.$$" "$program"
}

build() {
    need_rt
    { mkdir -p "$made" && true >"$record.$$"; } 2>/dev/null \
        || stop 126 "not built for the sources as they stand, and cannot write in $made"
    guard
    made_from >"$record.$$"
    if [ -f "$program" ] || [ -s "$log" ]; then
        say "building again: $again; progress is in $log"
    else
        say "proving and building first, which takes $takes; progress is in $log"
    fi
    true >"$log"
    scratch=$(mktemp -d "${TMPDIR:-/tmp}/heapguard.XXXXXX" 2>>"$log") \
        || stop 126 "cannot write in ${TMPDIR:-/tmp}"
    for it in $(crates); do echo "$it $(weight "$it")"; done >"$scratch/weights"
    if [ -n "$here" ]; then
        copy=$root
    else
        copy=$scratch/copy
        copy_crates 2>>"$log" || stop 126 "cannot copy the crates to $copy; $log says why"
    fi
    watch progress prove || failed
    finish
    mv "$record.$$" "$record"
    clean
    trap - INT TERM HUP EXIT
}
