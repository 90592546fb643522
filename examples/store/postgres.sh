#!/bin/bash
# Adds a harvest to a PostgreSQL database: of each graph a row of the table item(key, text, count).
#
#     postgres.sh [--lhs-key] [--rename] KIND FOLDER
#
# Each file is added whole, and once, as by sqlite.sh; but each process adds its own. The environment says which database, as to psql, and
# which hosts, as to records.sh. These have psql and this folder. A password is in ~/.pgpass on each host, or in the file that $PGPASSFILE
# names; $PGPASSWORD reaches this host alone.
set -o pipefail
here=$(cd "$(dirname "$0")" && pwd) database=()
. "$here/arguments.sh"
cd "$folder" || exit 2
PGOPTIONS="$PGOPTIONS --client-min-messages=warning" psql -qXw -v ON_ERROR_STOP=1 -f "$here/table.sql" || exit 2
. "$here/hosts.sh"
# A command line can be read by all users of a host, so the password is on none.
for name in $(compgen -e PG); do [ "$name" = PGPASSWORD ] || database+=("$name=${!name}"); done
find . -type f -name "*.$kind" -print0 | LC_ALL=C sort -z |
    parallel --null --no-run-if-empty --max-args 8 --quote "${where[@]}" \
        env "${database[@]}" SOUPER_ITEMS="${SOUPER_ITEMS:-souper_items}" STORE_FOLDER="$(pwd -P)" "$here/add_files.sh" "${options[@]}" "$kind"
status=$?
# Without statistics a query of few keys may read all of a table.
psql -qXw -c 'ANALYZE item, lhs' || exit 2
exit $status
