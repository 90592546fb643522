#!/bin/bash
# Sourced by the scripts of this folder that take [--lhs-key] [--rename] KIND FOLDER: sets `options`, `kind` and `folder`. The script ends
# with status 2 and its usage if it has other arguments, or if no file of FOLDER is of the KIND.
usage() {
    [ $# -eq 0 ] || echo "$(basename "$0"): $*" >&2
    sed -n "s/^#     \($(basename "$0") .*\)/usage: \1/p" "$0" >&2
    exit 2
}
options=()
while [[ $1 == -* ]]; do
    case $1 in --lhs-key | --rename) options+=("$1") && shift ;; *) usage "there is no option $1" ;; esac
done
[ $# -eq 2 ] || usage
kind=$1 folder=$2
case $kind in
rep) ;;
lhs | rhs) [[ " ${options[*]} " != *' --lhs-key '* ]] || usage "--lhs-key is of rep alone" ;;
*) usage "KIND is lhs, rhs or rep, not $kind" ;;
esac
[ -d "$folder" ] || usage "$folder is no folder"
[ -n "$(find "$folder" -type f -name "*.$kind" -print -quit)" ] || usage "$folder has no file *.$kind"
