#!/bin/bash
# Tests the programs that are on the PATH, with the stored runs of the repository.
#
#     programs.sh REPOSITORY
. "$(dirname "$0")/cases.sh"
REPOSITORY=$1

stored() { # program: its run with the arguments, the input and the output that the repository has
    local at=$REPOSITORY/crates/$1 words=()
    mapfile -t words <"$at/args"
    "$1" "${words[@]}" <"$at/stdin" | cmp - "$at/stdout"
}

same() {
    cd "$REPOSITORY" && [ "$(souper_fmt same lhs examples/first.souper examples/second.souper)" = same ]
}

count() {
    cd "$REPOSITORY" && souper_items uniq --count --rename lhs examples/first.souper examples/second.souper | grep -qx '; count 2'
}

invalid() {
    refused '^unknown:1:6: no value named' souper_fmt lhs <<<'infer %x'
}

version() {
    local wanted
    wanted=$(sed -n 's/^version = "\(.*\)"$/\1/p' "$REPOSITORY/embed/rust/Cargo.toml")
    [ "$(souper_items --version)" = "souper_items $wanted" ]
}

for program in souper_fmt souper_items; do
    holds "$program is found" command -v "$program"
    holds "$program, the stored run" stored "$program"
done
holds "two files are the same" same
holds "distinct items are counted" count
holds "an invalid text" invalid
holds "the version" version
ended
