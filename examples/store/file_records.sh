#!/bin/sh
# Writes the keyed records of files, those of each file between two marks, so that load.py adds a file whole, once, or not at all.
#
#     file_records.sh [--lhs-key] [--rename] KIND FILE...
#
# The first mark is `; file DIGEST NAME`: the SHA-256 of the file, and its whole name. The last is `; end`, and is there only if the file
# was read to its end and is valid. Each has a NUL before it and one after it. The name of a relative FILE begins with $STORE_FOLDER (the
# current folder). $SOUPER_ITEMS is the program (souper_items). The status is 0 if each file has its last mark.
usage() { echo "usage: file_records.sh [--lhs-key] [--rename] KIND FILE..." >&2 && exit 2; }
status=0 options=''
while case $1 in --lhs-key | --rename) ;; *) false ;; esac do options="$options $1" && shift; done
case $1 in lhs | rhs | rep) kind=$1 && shift ;; *) usage ;; esac
[ $# -ge 1 ] || usage
for file; do
    case $file in
    /*) name=$file ;;
    *) name=${STORE_FOLDER:-$PWD}/${file#./} ;;
    esac
    # shellcheck disable=SC2086
    digest=$(sha256sum <"$file") && printf '\0; file %.64s %s\0' "$digest" "$name" &&
        "${SOUPER_ITEMS:-souper_items}" format -z --key $options "$kind" "$file" && printf '\0; end\0' || status=1
done
exit $status
