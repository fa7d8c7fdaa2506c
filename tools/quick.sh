#!/bin/sh
# Tests a change within minutes, without proof, in a copy of the repository:
#     tools/quick.sh [--postgres]
# It checks the format of all crates, compiles and runs each program and all tests with the checks of `rt try`, checks
# the documents, and tests the library for C, in parallel (tools/quick.py). With --postgres it also tests the extension
# over that library. It checks no proof: that is what the gate, .ci/run, does. It needs what the gate needs, and git.
set -eu
top=$(cd "$(dirname "$0")/.." && pwd)
room=$(mktemp -d)
trap 'rm -rf "$room"' EXIT
trap 'exit 2' HUP INT TERM
mkdir "$room/copy" "$room/tmp"
# The server of --postgres runs as another user.
chmod 755 "$room" "$room/tmp"
(cd "$top" && git ls-files -coz --exclude-standard | tar -c --null --ignore-failed-read -T -) | tar -x -C "$room/copy"
TMPDIR=$room/tmp "$room/copy/tools/quick.py" "$@"
