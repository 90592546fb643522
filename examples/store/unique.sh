#!/bin/bash
# Writes the keyed records of a harvest without duplicates, in the order of their keys; with --lhs-key, of those of left-hand sides.
#
#     unique.sh [--lhs-key] [--rename] KIND FOLDER
#
# Each record has a NUL after it. Arguments, environment and status are those of records.sh.
set -o pipefail
here=$(dirname "$0")
. "$here/arguments.sh"
"$here/records.sh" "${options[@]}" "$kind" "$folder" | LC_ALL=C sort -zu
