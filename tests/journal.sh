#!/bin/sh
# Checks the journal of a large day with the accounting programs that are installed: hledger, ledger or both.
#
#   tests/journal.sh PROGRAM
#
# The status is 0 where each accepts it, and also where none of them or no Python is there, which it tells.

program=$1
here=$(cd "$(dirname "$0")" && pwd)
if ! command -v python3 >/dev/null; then
    echo "journal.sh: not tried, since Python is not installed" >&2
    exit 0
fi
if ! command -v hledger >/dev/null && ! command -v ledger >/dev/null; then
    echo "journal.sh: not tried, since neither hledger nor ledger is installed" >&2
    exit 0
fi
folder=$(mktemp -d) || exit 1
trap 'rm -rf "$folder"' EXIT
python3 -B "$here/../bench/big_day.py" >"$folder/day" || exit 1
"$program" journal "$folder/day" >"$folder/journal" || exit 1
"$here/../docs/check-journal.sh" "$folder/journal" >"$folder/told" 2>&1 || {
    cat "$folder/told" >&2
    exit 1
}
tail -n 1 "$folder/told" >&2
