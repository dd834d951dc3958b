#!/usr/bin/env bash
# Runs the layout of an example schema through SQLite: it has to take each statement as it stands, and hold the
# rules on null, types and ids. Does nothing where there is no `sqlite3`.
# `rt run` in crates/engine leaves the program; another may be given as the only argument.
set -euo pipefail

top=$(cd "$(dirname "$0")/.." && pwd)
engine=${1:-$top/crates/engine/out/engine}
schema=$top/examples/blog/schema.prisma
folder=$(mktemp -d)
trap 'rm -rf "$folder"' EXIT

command -v sqlite3 >/dev/null || { echo "skipped: no sqlite3"; exit 0; }
[ -x "$engine" ] || { echo "no program at $engine: call 'rt run' in crates/engine first" >&2; exit 1; }

"$engine" layout "$schema" >"$folder/layout.sql"
sqlite3 -bail "$folder/blog.db" <"$folder/layout.sql"

# SQLite keeps the text of each statement: all of them came in, in their order.
sqlite3 "$folder/blog.db" "SELECT sql || ';' FROM sqlite_schema WHERE sql IS NOT NULL ORDER BY rowid" >"$folder/kept.sql"
cmp "$folder/layout.sql" "$folder/kept.sql"

sqlite3 -bail "$folder/blog.db" "INSERT INTO \"Category\" (\"id\", \"name\") VALUES (1, 'poems')"
for row in "1, 'prose'" "2, NULL" "2, 'poems'" "'two', 'prose'"; do
  if sqlite3 -bail "$folder/blog.db" "INSERT INTO \"Category\" (\"id\", \"name\") VALUES ($row)" 2>/dev/null; then
    echo "SQLite took the row ($row)" >&2
    exit 1
  fi
done

echo "$(wc -l <"$folder/layout.sql") statements taken"
