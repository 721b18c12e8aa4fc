#!/bin/sh
# Receives a session for longer than the turns of one listener. It starts one listener after the other, each at the
# sequence number that the one before it expected next. It prints what a single listener with enough turns would print,
# and runs until the session ends.
#
#     sh examples/listen-on.sh NEXT ARGUMENT..
#
# NEXT is the sequence number of the first message. The arguments are those of `mold listen`, except --next. Run it at
# the top of the repository. Messages that arrive between two listeners are requested from the server. With --report
# each listener reports its lines when it ends.
set -u
next=$1
shift
part=$(mktemp) || exit 3
trap 'rm -f -- "$part"' EXIT
trap 'exit 3' HUP INT TERM

while :; do
    ./mold listen --next "$next" "$@" >"$part"
    status=$?
    [ "$status" -eq 1 ] || break
    sed '$d' "$part"
    next=$(sed -n '$s/^open next \([0-9]*\) .*/\1/p' "$part")
done
cat "$part"
exit "$status"
