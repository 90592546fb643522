# shellcheck shell=bash
# Counts cases. The scripts here and tools/everywhere read it.
PASSED=0 FAILED=0
CASES=$(mktemp -d)
trap 'rm -rf "$CASES"' EXIT

holds() { # label, command: one case, in a shell of its own
    if ("${@:2}") >"$CASES/log" 2>&1; then
        PASSED=$((PASSED + 1)) && echo "$1: 1 passed"
    else
        FAILED=$((FAILED + 1)) && echo "$1: 1 failed" && tail -n 20 "$CASES/log"
    fi
}

counted() { # label, command: its last line is `N passed, M failed`, perhaps after a word and a colon
    echo "== $1"
    "${@:2}" >"$CASES/log" 2>&1
    local status=$? passed failed
    grep -a '^missing: ' "$CASES/log"
    grep -aE -A 8 '\b1 failed|does not hold|rror' "$CASES/log" | head -n 40
    tail -n 1 "$CASES/log"
    passed=$(tail -n 1 "$CASES/log" | sed -n 's/^\(.*[: ]\)\?\([0-9][0-9]*\) passed, [0-9]* failed$/\2/p')
    failed=$(tail -n 1 "$CASES/log" | sed -n 's/.* passed, \([0-9][0-9]*\) failed$/\1/p')
    PASSED=$((PASSED + ${passed:-0})) FAILED=$((FAILED + ${failed:-0}))
    if [ "${failed:-0}" -eq 0 ] && { [ $status -ne 0 ] || [ "${passed:-0}" -eq 0 ]; }; then
        FAILED=$((FAILED + 1)) && tail -n 5 "$CASES/log"
    fi
}

ended() {
    echo "$PASSED passed, $FAILED failed"
    [ "$FAILED" -eq 0 ]
}

# A command that must fail and say something.
refused() { # pattern, command
    local said
    said=$("${@:2}" 2>&1) && { echo "it is taken: ${*:2}" && return 1; }
    grep -qE "$1" <<<"$said" || { echo "$said" && return 1; }
}

# Makes a copy of a file in which one byte is another: the one after so many percent of the length.
damaged() { # file, percent, copy
    local at byte
    at=$(($(stat -c %s "$1") * $2 / 100)) && byte=$(od -An -tu1 -j $at -N 1 "$1") && cp "$1" "$3" || return 1
    printf '%b' "$(printf '\\x%02x' $((byte ^ 255)))" | dd of="$3" bs=1 seek=$at conv=notrunc status=none
}

# Each file of the root with its mode and contents, but for those that dpkg, ldconfig and man-db write for themselves.
files() {
    find / -xdev \( -path /proc -o -path /sys -o -path /dev -o -path /srv -o -path /tmp -o -path /var/lib/dpkg -o -path /var/log -o -path /var/cache \
        -o -path /etc/ld.so.cache \) -prune -o -printf '%p %m %l\n' -type f -exec sha256sum {} + | sort
}

# The package is not installed, and the files are those that `files` wrote to $CASES/before. dpkg may keep the name of a package.
gone() {
    [[ $(dpkg-query -W -f '${Status}' sefgrun 2>/dev/null) =~ ^$|\ not-installed$ ]] && [ -z "$(ls /var/lib/dpkg/info/sefgrun* 2>/dev/null)" ] \
        && ! ldconfig -p | grep souper && files | diff "$CASES/before" -
}
