#!/bin/bash
# The mapper for Hadoop and Spark: writes a line for each item of files, `; KEY`, a tab, and the canonical text with a tab in
# place of each newline. (A canonical text has no tab.) Equal lines are the same graph.
#
#     lines.sh [--lhs-key] [--rename] KIND
#
# On standard input it takes names of files, one a line. A name with a scheme, as hdfs://HOST/PATH, is read by `hadoop fs -cat`.
# $SOUPER_ITEMS is the program (souper_items).
#
# `tr '\t\n' '\n\0'` makes keyed records of the lines. A file that is refused is reported, and counted by a counter of Hadoop; the
# items before its bad one have their lines. The status is 2 if a file could not be read.
set -o pipefail
usage() { echo "usage: lines.sh [--lhs-key] [--rename] KIND" >&2 && exit 2; }
case ${*: -1} in lhs | rhs | rep) ;; *) usage ;; esac
for option in "${@:1:$#-1}"; do
    case $option in --lhs-key | --rename) ;; *) usage ;; esac
done

# Writes the keyed records of standard input, and takes all of it, so that what writes to it does not fail.
records() {
    "${SOUPER_ITEMS:-souper_items}" format -z --key "$@"
    local status=$?
    cat >/dev/null
    return $status
}

show() {
    case $1 in
    *://*) hadoop fs -cat "$1" ;;
    *) cat -- "$1" ;;
    esac
}

while IFS= read -r name || [ -n "$name" ]; do
    show "$name" </dev/null | records "$@"
    statuses=("${PIPESTATUS[@]}")
    if [ "${statuses[0]}" -ne 0 ] || [ "${statuses[1]}" -gt 1 ]; then
        echo "lines.sh: $name: not read" >&2
        exit 2
    elif [ "${statuses[1]}" -eq 1 ]; then
        echo "lines.sh: $name: refused" >&2
        echo "reporter:counter:souper_items,refused,1" >&2
    fi
done | tr '\n\0' '\t\n'
