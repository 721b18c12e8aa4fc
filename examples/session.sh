#!/bin/sh
# A session over UDP on this machine. A file of messages is published on two lines, which each lose about half of their
# datagrams. A listener prints all messages, because it requests from a server those that both lines lost.
# Run it at the top of the repository, as `sh examples/session.sh`. The ports 41001 to 41005 have to be free.
set -eu
work=$(mktemp -d)
trap 'rm -rf -- "$work"' EXIT
seq 1001 1060 >"$work/messages" # 60 messages of two bytes
./mold show </dev/null          # builds the program if it is not built yet

# The listener starts first, because datagrams that are sent before it listens are lost. Its server is port 41005.
python3 examples/lossy-lines.py 41001 41003 41002 41004 >"$work/lost" &
./mold listen --session DEMO --a 127.0.0.1:41003 --b 127.0.0.1:41004 --server 127.0.0.1:41005 --turns 100 \
    >"$work/received" &
listener=$!
sleep 3

# The end of session is sent five times, because it may be lost too. Then the server can read the journal.
./mold publish --session DEMO --limit 64 --a 127.0.0.1:41001 --b 127.0.0.1:41002 --ends 5 --journal "$work/journal" \
    <"$work/messages"
./mold serve --journal "$work/journal" --bind 127.0.0.1:41005 --turns 20 >"$work/served" &
wait "$listener"
wait

cat "$work/lost"
sed -n '/^[0-9]/s/^[0-9]* //p' "$work/received" | cmp - "$work/messages" && echo 'received all messages, in order'
tail -n 1 "$work/received"
