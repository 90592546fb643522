#!/bin/bash
# Tests what the tarball and the package of Debian have besides the programs, below a prefix: man pages, C and C++ by pkg-config and by CMake,
# the Python module, the Rust crate.
#
#     use.sh PREFIX LIB PYTHON CRATE REPOSITORY
#
# LIB, PYTHON and CRATE are folders: of the libraries, of the module, of the crate. The programs are on the PATH, and the variables by
# which the tools find a prefix that is not the system's are set.
. "$(dirname "$0")/cases.sh"
PREFIX=$1 LIB=$2 PYTHON=$3 CRATE=$4 REPOSITORY=$5 HERE=$(cd "$(dirname "$0")" && pwd)
DOC=$PREFIX/share/doc/sefgrun
RECORDS=$REPOSITORY/crates/replay_answers/stdin
cd "$CASES" || exit 2

helps() { # program: its help, for souper_items that of each command
    local command
    case $1 in
    souper_fmt) ;;
    souper_items) for command in format uniq find check; do souper_items $command --help; done ;;
    *) "$1" --help ;;
    esac
}

page() { # program: its page is found, without a warning, and has the options of each command
    local text option
    text=$(MANWIDTH=200 man --warnings "$1" 2>"$1.warnings" | col -b) && [ ! -s "$1.warnings" ] || { cat "$1.warnings" && return 1; }
    grep -q "^SYNOPSIS" <<<"$text" || return 1
    for option in $(helps "$1" | grep -o '^ .*--[a-z-]*' | grep -o -- '--[a-z-]*'); do
        grep -q -- "$option" <<<"$text" || { echo "the page has no $option" && return 1; }
    done
}

shown_on_pages() { # the commands that the pages show print the same
    local at=$CASES/pages name
    mkdir -p "$at" && cp -r "$DOC/README.md" "$DOC/docs" "$DOC/examples" "$REPOSITORY/tools" "$at" || return 1
    for name in souper_fmt souper_items; do
        mkdir -p "$at/crates/$name/out" && ln -s "$(command -v $name)" "$at/crates/$name/out/$name" || return 1
    done
    "$at/tools/help-matches" | tee found && grep -q 'of which \([0-9]*\) were run, and 0 print something else' found
}

needs() { # program: whether it needs the shared library
    readelf -d "$1" | grep -q 'NEEDED.*libsouper_c.so.1\]'
}

# The two examples print what they should. The file has an item in three forms, and another.
right() { # format, keys
    printf '%%y = var %%x = var infer %%x' >a.lhs
    printf '%%x=var\ninfer %%x ; the same' >b.lhs
    printf '%%x:i8 = var\ninfer %%x\n\n' >c.lhs
    "$1" lhs a.lhs | cmp - <(printf '%%x = var\ninfer %%x\n\n') && [ "$("$2" a.lhs b.lhs c.lhs | cut -d: -f1 | sort | xargs)" = "1 2" ]
}

warned() { # compiler, words: no warning
    "$@" 2>warnings && [ ! -s warnings ] || { cat warnings && return 1; }
}

built() { # module of pkg-config, flags of it, flags of the compiler: the examples
    local flags
    flags=$(pkg-config $2 --cflags --libs "$1") || return 1
    # shellcheck disable=SC2086
    warned cc -Wall -Wextra $3 "$DOC/examples/format.c" $flags -o format \
        && warned c++ -Wall -Wextra -std=c++17 $3 "$DOC/examples/keys.cpp" $flags -o keys && right ./format ./keys
}

with_shared() { built souper "" "" && needs format && needs keys; }

with_archive() { built souper-static "" "" && ! needs format && ! needs keys; }

all_static() { built souper --static -static && ! readelf -d format | grep NEEDED; }

answers() { # module: the stored answers in C and in C++
    local flags tests=$REPOSITORY/embed/tests
    flags=$(pkg-config --cflags --libs "$1") || exit 1
    # shellcheck disable=SC2086
    cc -O2 -std=c11 -c "$tests/records.c" -I"$tests" $flags -o records.o \
        && cc -O2 -std=c11 "$tests/answers.c" records.o -I"$tests" $flags -o answers \
        && c++ -O2 -std=c++17 "$tests/answers.cpp" records.o -I"$tests" $flags -o answers_cpp || exit 1
}

cmake_builds() {
    local kind
    cmake -S "$DOC/examples" -B examples -DCMAKE_BUILD_TYPE=Release && cmake --build examples || return 1
    for kind in shared static; do right examples/format_$kind examples/keys_$kind || return 1; done
    needs examples/format_shared && ! needs examples/format_static
}

# CMake's answer to a request for a version.
asked() { # request
    mkdir -p asked && printf 'cmake_minimum_required(VERSION 3.19)\nproject(asked C)\nfind_package(souper %s REQUIRED)\n' "$1" >asked/CMakeLists.txt
    cmake -S asked -B "asked/build-${1// /-}"
}

versions() {
    local version
    version=$(pkg-config --modversion souper) && [ "$version" = "$(pkg-config --modversion souper-static)" ] || return 1
    asked "$version EXACT" && asked "${version%%.*}" && asked "" && asked "2.0...<3" && refused 'compatible|version' asked 3.0 \
        && refused 'compatible|version' asked 1.0 && refused 'compatible|version' asked 2.999
}

own_heap() { # the archive alone, over a heap of the program
    mkdir -p own && cp "$DOC/examples/format.c" "$DOC/examples/heap.c" own || return 1
    printf '%s\n' 'cmake_minimum_required(VERSION 3.16)' 'project(own C)' 'find_package(souper 2 REQUIRED)' 'add_executable(own format.c heap.c)' \
        'target_link_libraries(own PRIVATE souper::archive)' >own/CMakeLists.txt
    cmake -S own -B own/build && cmake --build own/build && own/build/own lhs a.lhs | cmp - <(printf '%%x = var\ninfer %%x\n\n')
}

exports() { # the shared library exports what the header declares, under one version
    local declared
    declared=$(sed -n 's/^\(SOUPER_CALL \)\?[A-Za-z0-9_]* \(souper_[a-z_]*\)(.*/\2/p' "$PREFIX/include/souper.h" | sort)
    [ "$(wc -w <<<"$declared")" -eq 14 ] || return 1
    nm -D --defined-only "$LIB/libsouper_c.so" | awk '$2 == "T" {print $3}' | sort | diff - <(sed 's/$/@@SOUPER_1/' <<<"$declared")
}

sample() { # language: the README's code in it
    sed -n "/^\`\`\`$1\$/,/^\`\`\`\$/p" "$DOC/README.md" | sed '1d;$d'
}

python_sample() {
    (cd / && sample python | python3 -W error -) >sample.txt || return 1
    diff <(head -n 3 sample.txt) <(printf '%%x:i8 = var\n%%y:i8 = add %%x, 1:i8\ninfer %%y\n') || return 1
    [ "$(cd / && python3 -c 'import souper; print(souper.__path__[0])')" = "$PYTHON/souper" ]
}

python_records() { # the module writes the records that the program writes
    local input=$REPOSITORY/crates/souper_items/stdin
    local program='import souper, sys; print(souper.record_text("lhs", sys.stdin.read(), rename=True), end="")'
    (cd / && python3 -W error -c "$program") <"$input" | cmp - <(souper_items format --rename lhs "$input")
}

python_page() { (cd / && python3 "$HERE/page.py" "$REPOSITORY/examples/first.souper" "$@"); }

# In a folder with another module of this name.
python_draws() {
    mkdir -p other && echo 'raise SystemExit("another module")' >other/souper.py && (cd other && souper-draw lhs "$REPOSITORY/examples/first.souper") \
        | diff - <(cd / && python3 -W error -m souper.draw lhs "$REPOSITORY/examples/first.souper") || return 1
    (cd other && refused '^souper-draw: /nowhere: No such file' souper-draw lhs /nowhere)
}

rust_project() { # a project that names the crate by its path; cargo has no registry and no network
    local at=$CASES/project profile
    mkdir -p "$at/src" && cd "$at" || return 1
    printf '%s\n' '[package]' 'name = "project"' 'version = "0.1.0"' 'edition = "2021"' '[dependencies]' \
        "souper-ir = { package = \"souper-ir-proved\", path = \"$CRATE\" }" >Cargo.toml
    { echo 'fn main() -> Result<(), Box<dyn std::error::Error>> {' && sample rust && printf 'assert_eq!(items.len(), 1);\nOk(()) }\n'; } >src/main.rs
    for profile in dev release; do
        env -u SOUPER_LIB_DIR CARGO_HOME="$CASES/cargo" cargo run -q --offline --profile $profile | cmp - <(printf '%%x = var\ninfer %%x\n') || return 1
    done
}

counted "the programs" "$HERE/programs.sh" "$REPOSITORY"
if command -v man >/dev/null; then
    for program in souper_fmt souper_items; do holds "man $program" page $program; done
fi
holds "the commands of the pages" shown_on_pages
holds "what the shared library exports" exports
holds "C and C++ by pkg-config, the shared library" with_shared
holds "C and C++ by pkg-config, the archive" with_archive
holds "C and C++ by pkg-config, a static program" all_static
for module in souper souper-static; do
    holds "$module, the stored answers are built" answers $module
    counted "$module, the stored answers in C" ./answers "$RECORDS"
    counted "$module, the stored answers in C++" ./answers_cpp "$RECORDS"
done
holds "C and C++ by CMake, shared and static" cmake_builds
holds "versions that CMake and pkg-config are asked for" versions
holds "the archive over another heap" own_heap
holds "Python, the README's sample" python_sample
holds "Python, the records of souper_items" python_records
if [ -e "$PYTHON/souper/page.py" ]; then
    holds "Python, the page" python_page python3 -W error -m souper.page
    holds "Python, the page by its command" python_page souper-page
    holds "Python, a picture" python_draws
    if command -v man >/dev/null; then
        for program in souper-draw souper-page; do holds "man $program" page $program; done
    fi
fi
holds "a Rust project" rust_project
ended
