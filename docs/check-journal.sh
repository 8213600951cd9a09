#!/bin/sh
# Checks a journal of `uplift journal` with hledger and with ledger, whichever is installed: each reads it by itself, sees that
# every transaction adds up to zero and that each balance that the journal states is reached, and tells the accounts' balances.
#
#   docs/check-journal.sh JOURNAL
#
# The status is 0 where every program that is there accepts the journal, 1 where one refuses it, 2 where none is there.

if [ $# -ne 1 ]; then
    echo "usage: check-journal.sh JOURNAL" >&2
    exit 2
fi
journal=$1
if [ ! -r "$journal" ]; then
    echo "check-journal.sh: cannot read $journal" >&2
    exit 2
fi

used=
status=0
refused() {
    echo "$1 refuses $journal" >&2
    status=1
}

if command -v hledger >/dev/null; then
    used="$used hledger"
    { hledger -f "$journal" check && hledger -f "$journal" balance; } || refused hledger
fi
if command -v ledger >/dev/null; then
    used="$used ledger"
    # Without the settings of the user's own.
    ledger --args-only -f "$journal" balance || refused ledger
fi

if [ -z "$used" ]; then
    echo "check-journal.sh: neither hledger nor ledger is installed" >&2
    exit 2
fi
echo "checked with:$used"
exit "$status"
