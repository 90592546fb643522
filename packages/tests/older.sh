#!/bin/bash
# Tests the package of Debian in a root of an older Debian. If its C library is older than the package says that it needs, dpkg says so;
# else the programs run.
#
#     older.sh PACKAGE REPOSITORY
. "$(dirname "$0")/cases.sh"
PACKAGE=$1 REPOSITORY=$2 HERE=$(cd "$(dirname "$0")" && pwd)
wanted=$(dpkg-deb -f "$PACKAGE" Depends | sed -n 's/.*libc6 (>= \([0-9.]*\)).*/\1/p')
there=$(dpkg-query -W -f '${Version}' libc6)
files >"$CASES/before"
if dpkg --compare-versions "$there" ge "$wanted"; then
    holds "the C library $there suffices: dpkg -i" dpkg -i "$PACKAGE"
    counted "the programs" "$HERE/programs.sh" "$REPOSITORY"
else
    holds "the C library $there is older than $wanted, and dpkg says so" refused "libc6 \\(>= $wanted\\); however" dpkg -i "$PACKAGE"
fi
holds "dpkg -r" dpkg -r sefgrun
holds "dpkg -r leaves nothing" gone
ended
