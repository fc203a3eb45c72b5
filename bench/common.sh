# shellcheck shell=bash
# What the commands of bench/ share: proving a program, timing it beside others, and leaving medians.
# Those that prove one name the folder of their own in `here`, and call `begin` first.
bench="$(cd "$(dirname "${BASH_SOURCE[0]}")" && pwd)"
# shellcheck source=../tools/closure.sh
. "$bench/../tools/closure.sh"

# Names the room that all is built in: the folder KEEP, or one that goes with the shell. CRATES=folder
# takes the crates from elsewhere.
begin() {
    crates="$(cd "${CRATES:-$bench/../crates}" && pwd)"
    work="${KEEP:-$(mktemp -d)}"
    [ -n "${KEEP:-}" ] || trap 'rm -rf "$work"' EXIT
    mkdir -p "$work/crates"
}

# CRATE..: puts these there with all that they stand on, but not their edits, nor what was built.
bring() {
    lines_below "$crates/../crates.txt" "$@" > "$work/crates.txt"
    sed 's/[ :].*//' "$work/crates.txt" | while read -r crate; do
        mkdir -p "$work/crates/$crate"
        tar -C "$crates/$crate" --exclude=./out --exclude=./must-fail --exclude=./more-edits -cf - . \
            | tar -C "$work/crates/$crate" -xf -
    done
    cp "$crates/../HANDLES" "$work/HANDLES"
}

# CRATE FOLDER PATH..: lays out sources of the crate. They end in .in, since the gate takes no source
# outside crates/; what two programs share names core_bench.
lay_out() {
    (cd "$2" && find "${@:3}" -name '*.in') | while read -r file; do
        to="$work/crates/$1/${file%.in}"
        mkdir -p "$(dirname "$to")"
        sed "s/\bcore_bench\b/$1/" "$2/$file" > "$work/made"
        cmp -s "$work/made" "$to" || cp "$work/made" "$to"
    done
}

# CRATE FOLDER: lays out what the program shares with others: its file `shared` has a folder, by that of
# its own, and a path there, a line.
lay_out_shared() {
    while read -r from path; do lay_out "$1" "$2/$from" "$path"; done < "$2/shared"
}

# STATUS: proves all that is there, and builds the programs, by the kit's gate: it takes what this
# machine has kept of earlier runs. Without arguments each program ends with this status. What was
# proved in this room from the same files isn't proved again.
prove() {
    local sum
    mkdir -p "$work/.git"
    for it in "$work"/crates/*_bench; do echo "$1" > "$it/status"; done
    sum=$(cd "$work" && find crates crates.txt HANDLES -name out -prune -o -type f -print0 | sort -z \
        | xargs -0 sha256sum | sha256sum)
    [ "$sum" != "$(cat "$work/proved" 2> "$work/said")" ] || return 0
    (cd "$work" && rt ci) > "$work/built" 2>&1 || { cat "$work/built"; exit 1; }
    echo "$sum" > "$work/proved"
}

# NAME COMMAND..: one more program.
names=()
declare -A command
# shellcheck disable=SC2034 # for the commands
program() { names+=("$1") && command[$1]="${*:2}"; }

# Builds what a program is timed beside: glibc's malloc and mimalloc want `cc` (and Debian's
# libmimalloc-dev), sharded-slab and slotmap `cargo` (and Debian's librust-sharded-slab-dev and
# librust-slotmap-dev). What isn't here is left out, and it says so.
peers() {
    local from="$bench/core/peers"
    if ! cc -O2 -std=gnu11 -pthread -o "$work/glibc" "$from/peers.c"; then
        echo 'left out: glibc, mimalloc and memset (no cc)' >&2
    else
        program glibc "$work/glibc"
        if cc -O2 -std=gnu11 -pthread -DMIMALLOC -o "$work/mimalloc" "$from/peers.c" -lmimalloc \
            2> "$work/said"; then
            program mimalloc "$work/mimalloc"
        else
            echo "left out: mimalloc ($(tail -n 1 "$work/said"))" >&2
        fi
        # memset of one and the same room, for what a large block's zeros cost by themselves
        cc -O2 -std=gnu11 -pthread -DMEMSET -o "$work/memset" "$from/peers.c"
        program memset "$work/memset"
    fi
    mkdir -p "$work/peers/src" "$work/peers/.cargo"
    cp "$from/peers.rs" "$work/peers/src/main.rs"
    cp "$from/Cargo.toml.in" "$work/peers/Cargo.toml"
    cp "$from/config.toml" "$work/peers/.cargo/config.toml"
    if (cd "$work/peers" && cargo build --release --offline) > "$work/said" 2>&1; then
        program sharded-slab "$work/peers/target/release/peers" sharded-slab
        program slotmap "$work/peers/target/release/peers" slotmap
    else
        echo "left out: sharded-slab and slotmap ($(grep -m 1 -E 'error|not found' "$work/said"))" >&2
    fi
}

# COMMAND CASE OPS: the instructions of a run, and how many operations it did.
counted() {
    # shellcheck disable=SC2086 # the words of a command
    valgrind --tool=callgrind --callgrind-out-file="$work/counted" $1 "$2" 1 0 "$3" \
        > "$work/line" 2> "$work/said" || return 1
    echo "$(sed -n 's/^\(totals\|summary\): //p' "$work/counted" | head -n 1)" \
        "$(cut -d ' ' -f 5 "$work/line")"
}

# NAME COMMAND CASE FEW MANY: a line of the instructions of both runs: of what many operations take
# above a few the start is no part.
instructions() {
    local few many
    few=$(counted "$2" "$3" "$4") && many=$(counted "$2" "$3" "$5") || return 0
    echo "$1 $3 $few $many"
}

# ROUND OWN NAME COMMAND CASE THREADS MS: the lines of a run, the round in front. Of others than OWN
# status 3 says that the program hasn't that case.
timed() {
    # shellcheck disable=SC2086
    $4 "$5" "$6" "$7" > "$work/line" 2> "$work/said" || {
        [ "$3" != "$2" ] && return
        cat "$work/said" >&2
        exit 1
    }
    sed "s/^/$1 /" "$work/line"
}

# When, on what, and beside what else.
place() {
    echo "$(date -u +%F), $(sed -n 's/^model name.*: //p' /proc/cpuinfo | head -n 1), $(nproc) of" \
        "$(nproc --all) cores, load $(cut -d ' ' -f 1-3 /proc/loadavg)"
}

# NAME: shows what comes, and leaves it as the medians of this benchmark in medians/NAME, of which docs
# tell; MEDIANS=folder leaves it elsewhere.
leave() {
    local to="${MEDIANS:-$bench/medians}"
    mkdir -p "$to"
    tee "$to/$1.new"
    mv "$to/$1.new" "$to/$1"
}
