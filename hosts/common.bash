# What ./directory and the scripts of hosts/ share: where things stand, and the builds. To be sourced.
set -euo pipefail

root=$(cd "$(dirname "${BASH_SOURCE[0]}")/.." && pwd)
out=$root/target/hosts
library=$root/target/staticlib/libbench.a
program=$root/target/bin/program
fast=(--edition 2021 -C opt-level=3 -C codegen-units=1 -D warnings)
script=$(cd "$(dirname "$0")" && pwd)/$(basename "$0")
script=${script#"$root"/}

fail() {
    echo "$script: $1" >&2
    exit 1
}

# Whether a product is missing or older than a file in the folders and files after it. What rt keeps in out/ does not count.
stale() {
    local product=$1
    shift
    [[ ! -e $product || -n $(find "$@" -name out -prune -o -type f -newer "$product" -print -quit) ]]
}

# The second program's library, line program, generator and examples, without checks, for speed.
build_second() {
    local source=$root/hosts/second
    local extern=(--extern second="$out/libsecond.rlib")
    mkdir -p "$out"
    stale "$out/edges" "$source" "$root/hosts/common.bash" || return 0
    rustc "${fast[@]}" --crate-type rlib --crate-name second "$source/lib.rs" --out-dir "$out" ||
        fail "the library does not build"
    rustc "${fast[@]}" "$source/main.rs" --crate-name second_line "${extern[@]}" -o "$out/second-line" ||
        fail "the line program does not build"
    rustc "${fast[@]}" "$source/generate/main.rs" --crate-name generate "${extern[@]}" -o "$out/generate" ||
        fail "the generator does not build"
    rustc "${fast[@]}" "$source/edges/main.rs" --crate-name edges "${extern[@]}" -o "$out/edges" ||
        fail "the paper's examples do not build"
}

# The proved bench call as a static library. `rt ci` leaves none, so the first script after it proves and builds it.
build_library() {
    stale "$library" "$root/crates.txt" "$root/crates" || return 0
    (cd "$root/crates/bench_c" && rt lib) || fail "rt lib did not build the crate bench_c"
    install -D -m 644 "$root/crates/bench_c/out/libbench_c.a" "$library" || fail "the crate bench_c left no library"
}

# A Rust host of the bench call, hosts/bench/NAME, into target/hosts/NAME.
build_host() {
    local name=$1 source=$root/hosts/bench
    build_second
    build_library
    stale "$out/$name" "$source" "$out/libsecond.rlib" "$library" || return 0
    rustc "${fast[@]}" --crate-type rlib --crate-name directory "$source/directory.rs" --out-dir "$out" \
        --extern second="$out/libsecond.rlib" -L native="$(dirname "$library")" ||
        fail "the bench call's Rust side does not build"
    rustc "${fast[@]}" "$source/$name/main.rs" --crate-name "$name" -o "$out/$name" \
        --extern second="$out/libsecond.rlib" --extern directory="$out/libdirectory.rlib" \
        -L native="$(dirname "$library")" || fail "the host $name does not build"
}

# The proved line program. .ci/run puts the one here that rt ci built; else `rt run` proves and builds it, on no input.
build_program() {
    stale "$program" "$root/crates.txt" "$root/crates" || return 0
    (cd "$root/crates/program" && rt run </dev/null) >&2 || fail "the program is not proved, so it is not built"
    install -D "$root/crates/program/out/program" "$program" || fail "the crate program left no program"
}
