#!/usr/bin/env bash
# Nobody but `calendar` writes the numbers of a year: its days, its hours, and the most of either. `marked_cases` has the papers' own cases,
# must-fail edits are wrong on purpose, and a comment may say a number.
set -euo pipefail
cd "$(dirname "$0")/.."

folders=()
for crate in crates/*/; do
    case $crate in crates/calendar/ | crates/marked_cases/) continue ;; esac
    for part in src specs proofs; do
        [ -d "$crate$part" ] && folders+=("$crate$part")
    done
done
written=$(grep -rnwE '36[56]|8_?760|8_?784' "${folders[@]}" --include='*.rt' --include='*.antt' | grep -vE '^[^:]*:[0-9]*:[[:space:]]*(//|--)' || true)
if [ -n "$written" ]; then
    echo "numbers of a year outside calendar:"
    echo "$written"
    exit 1
fi
echo "no crate but calendar writes the numbers of a year"
