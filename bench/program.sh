# For the scripts beside it: goes to the top, builds the program where it isn't there or is old, and makes
# a room for files that is gone at the end. They have it as $program and $room.
cd "$(dirname "${BASH_SOURCE[0]}")/.." || exit 1
program=crates/silkit/out/silkit
(cd crates/silkit && rt run -- pipe A 1 0 </dev/null >/dev/null 2>&1)
room=$(mktemp -d) || exit 1
trap 'rm -rf "$room"' EXIT
