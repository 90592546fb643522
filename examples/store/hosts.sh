#!/bin/bash
# Sourced by the scripts of this folder. Sets `where`, the options by which GNU parallel runs processes on this host or on others, as
# records.sh says. The status is 2 if a program is missing.
missing() { echo "$(basename "$0"): $1 is missing (Debian's package $2)" >&2 && exit 2; }
parallel --version 2>/dev/null | grep -q '^GNU parallel' || missing "GNU parallel" parallel
[ -z "$STORE_COPY" ] || command -v rsync >/dev/null || missing rsync rsync
where=(${STORE_JOBS:+--jobs "$STORE_JOBS"})
if [ -n "$STORE_HOSTS" ]; then
    where=(-S "$STORE_HOSTS" --ssh "${STORE_SSH:-ssh}" --workdir "${STORE_COPY:-$PWD}")
    if [ -n "$STORE_COPY" ]; then where+=(--transferfile {} --cleanup); fi
fi
