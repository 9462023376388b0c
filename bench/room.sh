# What the scripts of this folder begin with: a folder that is removed at the end, once for each script.
set -euo pipefail
if [ "${room_of:-}" != $$ ]; then
    room_of=$$
    room=$(mktemp -d)
    trap 'rm -rf "$room"' EXIT
fi
