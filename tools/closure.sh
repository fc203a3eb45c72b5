# shellcheck shell=sh

# FILE CRATE..: the lines of a crates.txt for these crates and for all that they stand on, lowest
# first.
lines_below() {
    listed=$1
    shift
    awk -v tops="$*" '
        { sub(/#.*/, "") }
        /:/ { name = $1; sub(/:.*/, "", name); line[name] = $0; sub(/.*:/, ""); needs[name] = $0 }
        function visit(name, n, at, parts) {
            if (!(name in line) || seen[name]++) return
            n = split(needs[name], parts)
            for (at = 1; at <= n; at++) visit(parts[at])
            print line[name]
        }
        END { n = split(tops, all); for (at = 1; at <= n; at++) visit(all[at]) }' "$listed"
}
