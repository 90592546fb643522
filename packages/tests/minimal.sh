#!/bin/bash
# Tests the package of Debian in a root that has the essential packages alone: it is refused when it is damaged or when the C library does
# not suffice, it is installed by dpkg alone, the programs run, and it is removed without a rest.
#
#     minimal.sh PACKAGE REPOSITORY
. "$(dirname "$0")/cases.sh"
PACKAGE=$1 REPOSITORY=$2 HERE=$(cd "$(dirname "$0")" && pwd)

refuses_damaged() { # where, in percent of the length
    damaged "$PACKAGE" "$1" "$CASES/damaged.deb" && refused 'error' dpkg -i "$CASES/damaged.deb" && gone
}

cut_off() {
    head -c $(($(stat -c %s "$PACKAGE") / 2)) "$PACKAGE" >"$CASES/damaged.deb"
    refused 'error' dpkg -i "$CASES/damaged.deb" && gone
}

# What dpkg says where its database has another C library, or none: a copy of the database, and an empty folder to install to.
without() { # pattern, edit of the database by sed
    rm -rf "$CASES/db" "$CASES/to" && mkdir "$CASES/to" && cp -a /var/lib/dpkg "$CASES/db" && sed -i "$2" "$CASES/db/status" || return 1
    refused "$1" dpkg --admindir="$CASES/db" --instdir="$CASES/to" --force-not-root --force-script-chrootless -i "$PACKAGE"
}

installed() {
    dpkg -i "$PACKAGE" && [ "$(dpkg-query -W -f '${Status}' sefgrun)" = "install ok installed" ] && ldconfig -p | grep -q libsouper_c.so.1
}

changed() {
    cp -p /usr/bin/souper_fmt "$CASES/kept" && printf x >>/usr/bin/souper_fmt || return 1
    refused '5.*/usr/bin/souper_fmt' said && cp -p "$CASES/kept" /usr/bin/souper_fmt
}

said() { # dpkg -V ends with status 0 whatever it finds
    local found
    found=$(dpkg -V sefgrun)
    echo "$found"
    [ -z "$found" ]
}

holds "there is no kit, no compiler, no Python" eval '! command -v rt && ! command -v cc && ! command -v python3'
files >"$CASES/before"
holds "the state before is as the state before" gone
for place in 2 30 60 95; do holds "a package with another byte at $place %" refuses_damaged $place; done
holds "half a package" cut_off
holds "an old C library" without 'libc6 \(>= [0-9.]+\); however' '/^Package: libc6$/,/^$/s/^Version: .*/Version: 2.3.6-1/'
holds "no C library" without 'libc6(:amd64)? is not installed' '/^Package: libc6$/,/^$/s/^Status: .*/Status: deinstall ok config-files/'
holds "nothing of these is left" gone
holds "dpkg -i" installed
holds "dpkg -i once more" installed
holds "dpkg -V" said
holds "dpkg -V of a changed file" changed
counted "the programs" "$HERE/programs.sh" "$REPOSITORY"
holds "dpkg -r" dpkg -r sefgrun
holds "dpkg -r leaves nothing" gone
ended
