#!/bin/bash
# Writes what replaces the left-hand sides of files, by the replacements of a store that was filled with --lhs-key.
#
#     ask.sh sqlite STORE [OPTION...] FILE...
#     ask.sh redis PORT [OPTION...] FILE...
#     ask.sh postgres [OPTION...] FILE...           the environment says which database, as to psql
#
# The store is asked once, for what is under the keys of all these left-hand sides. These candidates go into a temporary file, in the
# order of their keys, and `souper_items find --in CANDIDATES OPTION... FILE...` decides which of them match, and writes the answers.
# So an OPTION is one of `find`, such as --first; a value follows it after `=`. Nothing of the store is held in memory but the
# candidates. A left-hand side whose key the store has not gets no answer. Files are read twice, so none is a pipe.
#
# $SOUPER_ITEMS is the program (souper_items). The status is that of `find`, or 2 if the store could not be read or the disk of $TMPDIR is
# full: then nothing is written.
set -o pipefail
usage() { sed -n 's/^#     \(ask.sh.*\)/usage: \1/p' "$0" >&2 && exit 2; }
kind=$1 store='' options=() going=()
case $kind in
sqlite | redis) [ $# -ge 2 ] && store=$2 && shift 2 || usage ;;
postgres) shift ;;
*) usage ;;
esac
while [[ $1 == -?* ]]; do
    case $1 in --keep-going | --json | --jsonl | -[!-]*k* | -k*) going=(--keep-going) ;; esac
    options+=("$1") && shift
done
[ $# -ge 1 ] || usage
for file in "$@"; do
    [ "$file" != - ] || usage
    [ ! -p "$file" ] || { echo "ask.sh: $file is a pipe, and files are read twice" >&2; exit 2; }
done
program=${SOUPER_ITEMS:-souper_items}
folder=$(mktemp -d) || exit 2
trap 'rm -rf "$folder"' EXIT

# Writes the texts of the replacements whose left-hand sides have these keys, of which each is a line of standard input, and then a
# comment. A client may end early with status 0, and the comment is missing then.
LAST='; the last candidate'
candidates() {
    case $kind in
    sqlite)
        {
            echo 'CREATE TEMPORARY TABLE wanted(hash TEXT PRIMARY KEY); BEGIN;'
            sed "s/.*/INSERT INTO wanted VALUES ('&');/"
            # CROSS JOIN: lhs is searched for each key that is wanted, and never read as a whole.
            echo 'COMMIT; SELECT text FROM item WHERE key IN (SELECT key FROM wanted CROSS JOIN lhs USING (hash)) ORDER BY key;'
            echo "SELECT '$LAST';"
        } | sqlite3 -bail -readonly -list -noheader "$store"
        ;;
    redis)
        redis-cli -p "$store" ping >/dev/null || return 1
        { sed 's/.*/SORT left:rep:& ALPHA GET *->text/' && echo "ECHO '$LAST'"; } | redis-cli -e -p "$store"
        ;;
    postgres)
        {
            printf '%s\n' 'CREATE TEMPORARY TABLE wanted(hash TEXT PRIMARY KEY);' 'COPY wanted FROM STDIN;'
            cat
            printf '%s\n' '\.' 'ANALYZE wanted;'
            echo 'SELECT text FROM item WHERE key IN (SELECT key FROM wanted JOIN lhs USING (hash)) ORDER BY key COLLATE "C";'
            echo "SELECT '$LAST';"
        } | psql -qXAtw -v ON_ERROR_STOP=1 -v FETCH_COUNT=1000
        ;;
    esac
}

# Errors of a file are reported by `find`, which reads it again.
"$program" format -z --key --rename "${going[@]}" lhs "$@" 2>"$folder/errors" | tr '\n\0' ' \n' | cut -c 3-66 | LC_ALL=C sort -u >"$folder/keys"
statuses=("${PIPESTATUS[@]}") read_status=$?
[[ "${statuses[*]:1}" == "0 0 0" ]] || { echo "ask.sh: the keys were not written" >&2; exit 2; }
# The clients do not see that the disk is full; `cat` does.
{ candidates <"$folder/keys" | cat >"$folder/candidates.rep" && [ "$(tail -n 1 "$folder/candidates.rep")" = "$LAST" ]; } ||
    { echo "ask.sh: $kind${store:+ $store}: not read, or $folder is full" >&2; exit 2; }
"$program" find --in "$folder/candidates.rep" "${options[@]}" "$@"
status=$?
[ $status -ge $read_status ] || { cat "$folder/errors" >&2; exit $read_status; }
exit $status
