# shellcheck shell=bash
# The crates that diff/ and bench/ compare, for scripts in bash that source this under `set -euo pipefail`. They are built into
# $made, a new folder that is removed at the end, and for $processor, which is the one that Rattle builds for.
top=$(cd "$(dirname "${BASH_SOURCE[0]}")/../.." && pwd)
made=$(mktemp -d)
trap 'rm -rf "$made"' EXIT
processor=x86-64-v2

# build ARGUMENT..: rustc, optimizing, of an edition or of 2021
build() {
    [[ " $* " == *" --edition "* ]] || set -- --edition 2021 "$@"
    rustc -C opt-level=3 -C "target-cpu=${processor%% *}" -C embed-bitcode=no "$@"
}

# find_original FOLDER: $rlib is the original crate: the libtinystr.rlib in FOLDER, or one that is built of this checkout
find_original() {
    rlib=$1/libtinystr.rlib
    [ ! -f "$rlib" ] || return 0
    # into a folder of our own, since a checkout may be part of a workspace, which has its own
    RUSTFLAGS="${RUSTFLAGS-} -C target-cpu=x86-64-v2 --cap-lints allow" cargo build --quiet --release --offline \
        --features alloc --manifest-path "$1/Cargo.toml" --target-dir "$made/original"
    rlib=$made/original/release/libtinystr.rlib
}

# write_in_rust CRATE FOLDER NAME..: writes sources of a crate as Rust into a folder. It drops what is for the prover, and matches
# the last fault by `_`, since other crates have to expect more faults.
write_in_rust() {
    mkdir -p "$2"
    for name in "${@:3}"; do
        sed -E -e '/^ *ghost [^;]*;$/d; /^ +(requires|ensures) (\w+ )?\{.*\}$/d; /^#\[derive\(Drop\)\]$/d; /^\/\/!/d' \
            -e 's/\bcrate::(to_capacity!)/\1/; s/\bcrate::/super::/; s/ParseError::NonAscii =>/_ =>/' \
            -e '/^\/\/\/ Reads each text from the start/,/^}/d' "$top/crates/$1/src/$name.rt" > "$made/$name.rs"
        mv -f "$made/$name.rs" "$2"
    done
}
write_exports_in_rust() { write_in_rust tinystr_exports "$top/diff/drivers/out" batch calls cuts hashing printing readers; }

# build_proved [SOURCE FLAG..]: builds cargo/tinystr-proved as libtinystr.rlib and, with a source of calls, these as libmade.rlib
build_proved() {
    # the original's crate has the same name, so that this one's needs a mark
    local features=()
    for feature in alloc identifiers packed hashed; do features+=(--cfg "feature=\"$feature\""); done
    build --edition 2024 --crate-type rlib --crate-name tinystr -C metadata=made "${features[@]}" \
        --check-cfg 'cfg(test, portable_lanes)' --check-cfg 'cfg(feature, values(any()))' "${@:2}" \
        "$top/cargo/tinystr-proved/src/lib.rs" -o "$made/libtinystr.rlib"
    [ $# -eq 0 ] || build --crate-type rlib --crate-name made -A dead_code --extern tinystr="$made/libtinystr.rlib" "${@:2}" \
        "$1" -o "$made/libmade.rlib"
}
