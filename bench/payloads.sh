#!/usr/bin/env bash
# Counts the instructions for a publication of 8 and of 1,024 bytes that is decoded, copied to 7 peers and
# dropped. Two runs, of 1,000 and 11,000 messages, so that what a run takes once doesn't count. Needs valgrind.
# The program for it is bench/payloads.program; it is proved in a copy of the crates, as it doesn't ship.
cd "$(dirname "${BASH_SOURCE[0]}")/.." || exit 1
room=$(mktemp -d) || exit 1
trap 'rm -rf "$room"' EXIT
mkdir -p "$room/crates/payloads/src" && cp -a crates/sk_base crates/sk_msg crates/sk_wire "$room/crates" || exit 1
cp bench/payloads.program "$room/crates/payloads/src/main.rt" || exit 1
printf 'sk_base:\nsk_msg: sk_base\nsk_wire: sk_base sk_msg\npayloads: sk_base sk_msg sk_wire\n' >"$room/crates.txt"
(cd "$room/crates/payloads" && rt run -- 0 0 >"$room/log" 2>&1) || { tail -n 20 "$room/log"; exit 1; }
count() {
    valgrind --tool=callgrind --callgrind-out-file=/dev/null "$room/crates/payloads/out/payloads" "$1" "$2" \
        2>&1 >/dev/null | sed -n 's/.*Collected : *//p'
}
for bytes in 8 1024; do
    few=$(count 1000 "$bytes") many=$(count 11000 "$bytes")
    echo "$(((many - few) / 10000)) instructions a message of $bytes bytes"
done
