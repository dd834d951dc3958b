#!/usr/bin/env bash
# Takes the texts of docs/SCHEMA.md through the program: of each rule and fault the first one has to be refused with the
# line that stands behind it there, and the second one to be accepted.
# `rt run` in crates/engine leaves the program; another may be given as the only argument. With `--write FOLDER` the
# texts are written there, each beside what it has to bring, for `rt try --cases FOLDER -- validate {}`.
set -euo pipefail

top=$(cd "$(dirname "$0")/.." && pwd)
page=$top/docs/SCHEMA.md
folder=$(mktemp -d)
trap 'rm -rf "$folder"' EXIT

# One file for each block of the part, named by its heading and its place; what a text has to bring stands beside it.
awk -v folder="$folder" '
  /^## /    { on = /^## What to do about each/; next }
  !on       { next }
  /^#### /  { rule = $2; sub(/:.*/, "", rule); count = 0; next }
  /^```/    { if (file) { close(file); file = ""; next }
              count++; file = folder "/" (rule ? rule "_" count : "front") "." substr($0, 4); printf "" > file; next }
  file      { print > file; next }
  /^`P1012/ { split($0, parts, "`"); print parts[2] > (folder "/" rule "_1.wanted"); close(folder "/" rule "_1.wanted")
              print "ok" > (folder "/" rule "_2.wanted"); close(folder "/" rule "_2.wanted") }
' "$page"

# The text of one example: what the block holds or its command writes, behind the datasource unless it has its own.
text_of() {
  local block=$1 text=$2
  case $block in
    *.sh) sh "$block" >"$folder/block" ;;
    *) cp "$block" "$folder/block" ;;
  esac
  if grep -aq datasource "$folder/block"; then cp "$folder/block" "$text"; else cat "$folder/front.prisma" "$folder/block" >"$text"; fi
}

count=0
differ=0
for wanted in "$folder"/*.wanted; do
  name=$(basename "$wanted" .wanted)
  text=$folder/$name.text
  text_of "$(ls "$folder/$name".prisma "$folder/$name".sh 2>/dev/null)" "$text"
  count=$((count + 1))
  if [ "${1:-}" = --write ]; then
    mkdir -p "$2"
    cp "$text" "$2/$name"
    cp "$wanted" "$2/$name.stdout"
    continue
  fi
  engine=${1:-$top/crates/engine/out/engine}
  [ -x "$engine" ] || { echo "no program at $engine: call 'rt run' in crates/engine first" >&2; exit 1; }
  said=$("$engine" validate "$text" || true)
  if [ "$said" != "$(cat "$wanted")" ]; then
    differ=$((differ + 1))
    echo "$name: wanted '$(cat "$wanted")', and it is '$said'"
  fi
done
echo "$count texts, $differ differ"
[ "$differ" = 0 ]
