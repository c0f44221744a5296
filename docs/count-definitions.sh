#!/usr/bin/env bash
# Counts the lines of the definitions that GUARANTEES.md names, and compares them with the numbers that it prints.
#   docs/count-definitions.sh            compares, and ends with 1 where a number differs or a definition isn't there
#   docs/count-definitions.sh --write    writes the numbers into GUARANTEES.md
# A row of a table counts whose last cell is a number and whose last cell but one has links to files of definitions. A link with
# names in backquotes counts the lines of these definitions, any other link the whole file; a row that says "all of the above"
# counts the files of its table, each once. Blank lines, comments and imports don't count.
set -eu
top=$(cd "$(dirname "${BASH_SOURCE[0]}")/.." && pwd)
page=$top/docs/GUARANTEES.md
made=$(mktemp)
trap 'rm -f "$made"' EXIT

awk -v docs="$top/docs" '
  function is_counted(line) { return line !~ /^[ \t]*$/ && line !~ /^[ \t]*--/ && line !~ /^use / && line !~ /^pub use / }

  # The lines of a file, of all its definitions or of those that are wanted. A definition goes from its head to the next line at
  # the margin that begins with another name; in a block of mutual definitions the margin is two spaces further in.
  function count(path, names,   wanted, list, n, i, line, total, inside, mutual, importing, head) {
    n = split(names, list, " "); for (i = 1; i <= n; i++) wanted[list[i]] = 1
    total = 0; inside = (n == 0); mutual = 0; importing = 0
    while ((getline line < path) > 0) {
      if (importing) { if (line ~ /^}/) importing = 0; continue }
      if (line ~ /^use .*[{][ \t]*$/) { importing = 1; continue }
      if (line == "mutual" || line == "abbrev mutual") { mutual = 1; continue }
      if (line ~ /^[^ \t]/) mutual = 0
      if (mutual) sub(/^  /, "", line)
      if (n > 0 && line ~ /^[^ \t]/ && line !~ /^--/) {
        head = line; sub(/^abbrev /, "", head); sub(/^pub /, "", head); sub(/^abbrev /, "", head); sub(/^record /, "", head); sub(/^data /, "", head); sub(/[ :({].*/, "", head)
        inside = (head in wanted); if (inside) wanted[head] = 2
      }
      if (inside && is_counted(line)) total++
    }
    if ((getline line < path) < 0) { print path ": no such file" > "/dev/stderr"; failed = 1 }
    close(path)
    for (i = 1; i <= n; i++) if (wanted[list[i]] != 2) { print path ": no " list[i] > "/dev/stderr"; failed = 1 }
    return total
  }

  # the lines that the links of a cell lead to
  function links(cell,   total, link, text, path, names) {
    total = 0
    while (match(cell, /\[[^]]*\]\([^)]*\.antt\)/)) {
      link = substr(cell, RSTART, RLENGTH); cell = substr(cell, RSTART + RLENGTH)
      text = link; sub(/\].*/, "", text); sub(/^\[/, "", text)
      path = link; sub(/.*\(/, "", path); sub(/\)$/, "", path); path = docs "/" path
      names = ""
      while (match(text, /`[^`]*`/)) { names = names " " substr(text, RSTART + 1, RLENGTH - 2); text = substr(text, RSTART + RLENGTH) }
      n_links++
      if (names == "" && !(path in seen)) { seen[path] = 1; sum += count(path, "") }
      total += count(path, names)
    }
    return total
  }

  !/^\|/ { delete seen; sum = 0 }
  /^\|.*\|[ \t]*(N|[0-9]+)[ \t]*\|[ \t]*$/ {
    cells = split($0, cell, "|"); before = cell[cells - 2]
    if ($0 ~ /all of the above/) number = sum
    else { n_links = 0; number = links(before); if (n_links == 0) { print; next } }
    sub(/\|[ \t]*(N|[0-9]+)[ \t]*\|[ \t]*$/, "| " number " |")
  }
  { print }
  END { exit failed }
' "$page" > "$made"

if [ "${1-}" = --write ]; then
  cat "$made" > "$page"
elif diff "$page" "$made" > /dev/null; then
  echo "the numbers of GUARANTEES.md are those of the definitions"
else
  diff "$page" "$made" | sed -n 's/^</GUARANTEES.md:/p; s/^>/counted:      /p'
  exit 1
fi
