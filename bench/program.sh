# To be sourced with the name of a program: `program` is its path once `rt ci` has built it, and the working folder is an empty one that is removed at the end.
set -euo pipefail
program="$(cd "$(dirname "${BASH_SOURCE[0]}")/.." && pwd)/crates/$1/out/$1"
if [ ! -x "$program" ]; then
  echo "no program at crates/$1/out/$1: run rt ci first" >&2
  exit 1
fi
folder=$(mktemp -d)
trap 'rm -rf "$folder"' EXIT
cd "$folder"
