#!/usr/bin/env bash
# No proof opens a definition of a crate beneath it: callers cite the name and the laws. Two exceptions: the sums, lists, counts and
# tables of `numbers`, and the marked cases, which are computed.
set -euo pipefail
cd "$(dirname "$0")/.."

# every definition that can be opened, as CRATE NAME
definitions=$(grep -rE '^unfoldable pub ' crates/*/specs --include='*.antt' |
    sed -E 's|^crates/([^/]+)/.*:unfoldable pub ([^ ]+) .*|\1 \2|' | grep -v '^numbers ')

# every definition that a file opens, as CRATE NAME FILE
opened=$(grep -rnoE '^ *unfolding .*|unfold [^=]* in ' crates --include='*.antt' |
    sed -E 's|^(crates/([^/]+)/[^:]+):[0-9]+: *unfold(ing)? |\2 \1 |' |
    awk '{ for (i = 3; i <= NF; i++) if ($i != "in") print $1, $i, $2 }' | sort -u)

awk -v definitions="$definitions" '
    BEGIN {
        n = split(definitions, rows, "\n")
        for (i = 1; i <= n; i++) { split(rows[i], row, " "); defined[row[1], row[2]] = 1; home[row[2]] = row[1] }
    }
    $1 != "marked_cases" && ($2 in home) && !(($1, $2) in defined) { print $3 " opens " $2 " of " home[$2]; wrong = 1 }
    END { exit wrong }' <<<"$opened"

# nor does an attribute of a function
if grep -rnoE 'unfolding\([^)]*\)' crates/*/src --include='*.rt' |
    sed -E 's/(crate|numbers)::specs::[A-Za-z_:]+//g' | grep '::specs::'; then
    exit 1
fi
echo "no proof opens a definition of a crate beneath it"
