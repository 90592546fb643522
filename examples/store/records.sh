#!/bin/bash
# Writes the records of the items of a harvest, by many processes: of each item `; KEY`, a newline, its canonical text, NUL.
# They are in the order of the names of the files, as one process would write them.
#
#     records.sh [--files] [--lhs-key] [--rename] KIND FOLDER
#
# They are the items of FOLDER/*.KIND, and of folders in it. KIND is lhs, rhs or rep.
#
# With --lhs-key, of `rep` alone, a record begins with the key of its left-hand side, by which `ask.sh` finds it in a store. With --files
# there are the marks of file_records.sh.
#
# A process reads whole files, so that it finds where each item ends. What is set by the environment:
#
#     SOUPER_ITEMS   the program, on each host (souper_items)
#     STORE_JOBS     how many processes run at once on this host (as many as it has cores)
#     STORE_HOSTS    other hosts in its place, as `parallel -S` takes them: 4/one,4/two for four processes on each
#     STORE_SSH      how ssh is called (ssh)
#     STORE_COPY     a folder for the hosts, into which each file is copied by rsync until it was read. If it is not set, the
#                    hosts have the harvest in the same place, as on a shared file system.
#
# The status is 0 if that of each process was 0. If a file is refused, the items before its bad one have their records, and
# so have all other files.
set -o pipefail
here=$(cd "$(dirname "$0")" && pwd) program=${SOUPER_ITEMS:-souper_items} marked=''
[ "$1" != --files ] || { marked=yes && shift; }
. "$here/arguments.sh"
cd "$folder" || exit 2
. "$here/hosts.sh"
command=("$program" format -z --key)
# The hosts need not have this folder, so they get the text of the script.
[ -z "$marked" ] || command=(env SOUPER_ITEMS="$program" STORE_FOLDER="$(pwd -P)" sh -c "$(cat "$here/file_records.sh")" file_records.sh)
find . -type f -name "*.$kind" -print0 | LC_ALL=C sort -z |
    parallel --null --no-run-if-empty --keep-order --max-args 8 --quote "${where[@]}" "${command[@]}" "${options[@]}" "$kind"
