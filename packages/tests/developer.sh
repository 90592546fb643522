#!/bin/bash
# Tests all packages in a root that has compilers, Python, cargo, zsh and man, and no kit and no network.
#
#     developer.sh PACKAGES REPOSITORY
. "$(dirname "$0")/cases.sh"
PACKAGES=$1 REPOSITORY=$2 HERE=$(cd "$(dirname "$0")" && pwd)
export HOME=$CASES
DEB=$(echo "$PACKAGES"/sefgrun_*.deb) WHEEL=$(echo "$PACKAGES"/sefgrun-*.whl) TARBALL=$(echo "$PACKAGES"/souper-*-x86_64-linux.tar.gz)
CRATE=$(echo "$PACKAGES"/souper-ir-proved-*)

bash_loads() { # bash-completion finds the completion by the program's name
    bash -c '. /usr/share/bash-completion/bash_completion; _completion_loader souper_items; _completion_loader souper_fmt
        complete -p souper_items souper_fmt' | cmp - <(printf 'complete -F _%s %s\n' souper_items souper_items souper_fmt souper_fmt)
}

described() { # apropos finds the pages
    mandb -q; apropos souper | grep -q '^souper_items (1) *- ' && whatis souper_fmt
}

unpacked() { # a prefix with a space in its name is not tried: pkg-config's flags are split by the shell
    mkdir -p /tmp/first && tar -xzf "$TARBALL" -C /tmp/first && mv /tmp/first /tmp/moved
}

tar_refused() {
    damaged "$TARBALL" 50 "$CASES/damaged.tar.gz" && refused 'rror' tar -xzf "$CASES/damaged.tar.gz" -C "$CASES"
}

sums_refused() { # SHA256SUMS names the file that is another
    (cd "$PACKAGES" && sha256sum --quiet -c SHA256SUMS) && cp -r "$PACKAGES" "$CASES/sums" || return 1
    damaged "$WHEEL" 50 "$CASES/sums/$(basename "$WHEEL")" && cd "$CASES/sums" && refused 'whl: FAILED' sha256sum --quiet -c SHA256SUMS
}

in_venv() { "$CASES/venv/bin/$1" "${@:2}"; }

wheel_installs() {
    python3 -m venv "$CASES/venv" && in_venv pip install --no-index "$WHEEL" && in_venv pip check && in_venv pip show -f sefgrun | grep -q souper/libsouper_c.so
}

wheel_answers() {
    local input=$REPOSITORY/crates/souper_items/stdin
    local program='import souper, sys; print(souper.record_text("lhs", sys.stdin.read(), rename=True), end="")'
    (cd / && in_venv python -W error -c "$program") <"$input" | cmp - <(souper_items format --rename lhs "$input")
}

wheel_runs_an_example() {
    cd "$REPOSITORY" || return 1
    in_venv python -W error embed/python/examples/histogram.py lhs examples/first.souper examples/second.souper | cmp - <(printf '       1 add\n')
}

wheel_has_commands() {
    (cd / && in_venv souper-draw lhs "$REPOSITORY/examples/first.souper") | grep -q '^digraph souper {$' \
        && (cd / && python3 "$HERE/page.py" "$REPOSITORY/examples/first.souper" "$CASES/venv/bin/souper-page")
}

wheel_leaves() {
    in_venv pip uninstall -y sefgrun && [ -z "$(find "$CASES/venv" -name '*souper*' -o -name '*sefgrun*')" ]
}

wheel_refused() {
    mkdir "$CASES/damaged" && damaged "$WHEEL" 50 "$CASES/damaged/$(basename "$WHEEL")" && python3 -m venv "$CASES/other" || return 1
    refused 'BadZipFile|zlib.error' "$CASES/other/bin/pip" install --no-index "$CASES/damaged/$(basename "$WHEEL")"
}

for_another_system() { # the tag of a later C library
    local name
    name=$(sed 's/manylinux_2_[0-9]*/manylinux_2_99/' <<<"$(basename "$WHEEL")") && cp "$WHEEL" "$CASES/$name" || return 1
    refused 'not a supported wheel' "$CASES/other/bin/pip" install --no-index "$CASES/$name"
}

offline() { env -u SOUPER_LIB_DIR CARGO_HOME="$CASES/cargo" cargo "$1" --offline "${@:2}"; }

example_of_the_crate() { # in its own folder, with the archive beside build.rs
    printf '%%y = var %%x = var infer %%x\n\n%%x=var\ninfer %%x\n' >"$CASES/a.lhs"
    cp -r "$CRATE" "$CASES/crate" && cd "$CASES/crate" || return 1
    offline run -q --example unique -- "$CASES/a.lhs" 2>"$CASES/unique" | cmp - <(printf '%%x = var\ninfer %%x\n\n') || return 1
    grep -q '^2 items, 1 graphs, 0 refused$' "$CASES/unique"
}

crate_without_archive() {
    cp -r "$CRATE" "$CASES/lacking" && rm "$CASES/lacking/libsouper_c.a" && cd "$CASES/lacking" && refused 'SOUPER_LIB_DIR must name' offline build
}

holds "there is no kit" eval '! command -v rt'
mandb -q
files >"$CASES/before"
holds "dpkg -i" dpkg -i "$DEB"
lib=/usr/lib/x86_64-linux-gnu
counted "the package of Debian" "$HERE/use.sh" /usr $lib /usr/lib/python3/dist-packages /usr/lib/sefgrun/souper-ir-proved "$REPOSITORY"
holds "apropos" described
holds "bash-completion" bash_loads
counted "bash at a terminal, the package of Debian" python3 "$HERE/tab.py" bash '. /usr/share/bash-completion/bash_completion'
counted "zsh at a terminal, the package of Debian" python3 "$HERE/tab.py" zsh 'autoload -U compinit; compinit -u -D'
holds "Python compiled the module" ls /usr/lib/python3/dist-packages/souper/__pycache__
holds "the wheel" wheel_installs
holds "the wheel, records" wheel_answers
holds "the wheel, an example" wheel_runs_an_example
holds "the wheel, its commands" wheel_has_commands
holds "the wheel is uninstalled" wheel_leaves
holds "a wheel with another byte" wheel_refused
holds "a wheel for a later C library" for_another_system
holds "dpkg -r" dpkg -r sefgrun
holds "dpkg -r leaves nothing" gone
holds "dpkg -r leaves no man page" eval '! man -w souper_items'
holds "the tarball is unpacked and moved" unpacked
top=$(echo /tmp/moved/souper-*)
export PATH=$top/bin:$PATH PKG_CONFIG_PATH=$top/lib/pkgconfig CMAKE_PREFIX_PATH=$top LD_LIBRARY_PATH=$top/lib PYTHONPATH=$top/python
counted "the tarball" "$HERE/use.sh" "$top" "$top/lib" "$top/python" "$top/rust/souper-ir-proved" "$REPOSITORY"
completions=$top/share/bash-completion/completions functions=$top/share/zsh/site-functions
counted "bash at a terminal, the tarball" python3 "$HERE/tab.py" bash ". $completions/souper_fmt; . $completions/souper_items"
counted "zsh at a terminal, the tarball" python3 "$HERE/tab.py" zsh "fpath=($functions \$fpath); autoload -U compinit; compinit -u -D"
unset PKG_CONFIG_PATH CMAKE_PREFIX_PATH LD_LIBRARY_PATH PYTHONPATH
holds "a tarball with another byte" tar_refused
holds "the sums" sums_refused
holds "an example of the crate" example_of_the_crate
holds "the crate without its archive" crate_without_archive
ended
