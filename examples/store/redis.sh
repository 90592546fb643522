#!/bin/bash
# Adds a harvest to a Redis server: of each graph a hash KIND:KEY with the canonical text and in how many items it is.
#
#     redis.sh PORT [--lhs-key] [--rename] KIND FOLDER
#
# Each file is added whole, and once, as by sqlite.sh. Arguments, environment and status are those of records.sh.
set -o pipefail
here=$(dirname "$0") port=$1
[ $# -eq 0 ] || shift
. "$here/arguments.sh"
"$here/records.sh" --files "${options[@]}" "$kind" "$folder" | "$here/load.py" redis "$kind" |
    redis-cli -p "$port" --pipe --pipe-timeout 600 >&2
