#!/bin/bash
# Adds the items of files to a PostgreSQL database that has table.sql, each file in a transaction, and once.
#
#     add_files.sh [--lhs-key] [--rename] KIND FILE...
#
# The environment says which database, as to psql, and the rest as to file_records.sh. A file that is refused adds nothing. The status is 0
# if each file was or had been added.
set -o pipefail
here=$(dirname "$0") arguments=("$@")
while [[ $1 == --lhs-key || $1 == --rename ]]; do shift; done
[[ $# -ge 2 && $1 =~ ^(lhs|rhs|rep)$ ]] || { echo "usage: add_files.sh [--lhs-key] [--rename] KIND FILE..." >&2; exit 2; }
"$here/file_records.sh" "${arguments[@]}" | "$here/load.py" postgres | psql -qXw
