#!/bin/bash
# Adds a harvest to an SQLite file: of each graph the key, the canonical text, and in how many items it is.
#
#     sqlite.sh STORE [--lhs-key] [--rename] KIND FOLDER
#
# Each file is added whole, in a transaction that also notes its whole name and its SHA-256. So it counts once, whatever was killed and
# however often this is run. A file that is refused adds nothing. Arguments, environment and status are those of records.sh.
set -o pipefail
here=$(dirname "$0") store=$1
[ $# -eq 0 ] || shift
. "$here/arguments.sh"
"$here/records.sh" --files "${options[@]}" "$kind" "$folder" | "$here/load.py" sqlite | sqlite3 -bail "$store"
