#!/bin/sh
# Writes the stored cases and answers of the program `replay` (crates/replay/stdin, stdout): the sample
# answered by the published Rust, then the cases made by hand; and the numbers that a call leaves for them
# (tests/numbers.txt). Checks the model of document 01 on all of them. Needs what build.sh needs.
set -eu
HERE=$(cd "$(dirname "$0")" && pwd)
STORED=$HERE/../../crates/replay
PROGRAMS=$("$HERE/../build.sh")
"$PROGRAMS/cases" "$STORED"
python3 -B "$HERE/handmade.py" "$STORED"
python3 -B "$HERE/model.py" "$STORED"
"$PROGRAMS/replay" "$STORED"
python3 -B "$HERE/numbers.py" "$STORED" > "$HERE/../../tests/numbers.txt"
