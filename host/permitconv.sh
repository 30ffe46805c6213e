#!/bin/sh
# Runs permitconv with an exit status: 1 where it says on standard error that standard input cannot be read or standard output cannot be
# written, and otherwise its own. The program itself ends with 0 there too (docs/DECISIONS.md).
#
#     host/permitconv.sh PROGRAM < FILE
set -u
exec 3>&1 || exit 1
said=$("$1" 2>&1 >&3)
status=$?
if [ -n "$said" ]; then
    printf '%s\n' "$said" >&2
    [ "$status" -ne 0 ] || status=1
fi
exit "$status"
