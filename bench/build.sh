# Builds the bench; for the scripts of this folder, which set `here` to it, source this and call `build_bench`.
. "$here/../tools/cross.sh"

# What the emulator stands for, where there is one: a processor whose C library clears memory by stores of sixteen bytes.
# By string instructions, which the emulator does byte by byte, clearing would drown the rest.
QEMU_CPU=Nehalem
export QEMU_CPU

# Builds the bench for x86-64 over the original's text in a folder, and sets BENCH to the program. EXPORTS names another
# archive of this reader than that of `tools/build exports`; without any, the bench has the other two readers only.
# With NATIVE set it is built for this machine, whatever that is, and without this reader.
build_bench() { # SRC_DIR
    BOSON_SRC=$(cd "$1" && pwd)
    build_target=${CARGO_TARGET_DIR:-$here/target}
    PLAIN_DIR=$build_target/plain
    export BOSON_SRC PLAIN_DIR
    if [ -n "${NATIVE:-}" ]; then
        cross_native
        build_plain
        build_rust release ''
    else
        cross_setup
        build_plain
        build_rust "$CROSS_TARGET/release" "$(build_ours)"
    fi
}

build_plain() {
    mkdir -p "$PLAIN_DIR"
    rm -f "$PLAIN_DIR/libplain.a"
    for build_name in reader tree writer unicode fields json; do
        "$CC" -std=c11 -O3 -Wall -Wextra -c -o "$PLAIN_DIR/$build_name.o" "$here/$build_name.c"
        "$AR" rc "$PLAIN_DIR/libplain.a" "$PLAIN_DIR/$build_name.o"
    done
}

# The path of this reader's archive, if there is one.
build_ours() {
    build_archive=${EXPORTS:-$here/../target/staticlib/libexports.a}
    if [ -f "$build_archive" ]; then
        echo "$build_archive"
    else
        echo "bench: no $build_archive, so without this reader; make it by: tools/build exports" >&2
    fi
}

# Whether an archive has the writer of JSON texts; one from before hasn't.
build_has_json() { # ARCHIVE
    grep -q shigthapul_json "$1"
}

# Builds the program into a folder below the target folder; with this reader if it has an archive.
build_rust() { # FOLDER ARCHIVE
    BENCH=$build_target/$1/bench
    build_features=''
    if [ -n "$2" ]; then
        EXPORTS_DIR=$(cd "$(dirname "$2")" && pwd)
        export EXPORTS_DIR
        build_features='--features ours'
        ! build_has_json "$2" || build_features='--features json'
    fi
    # shellcheck disable=SC2086 # two words, or none
    "$CARGO" build --release --offline --quiet --manifest-path "$here/Cargo.toml" \
        --target-dir "$build_target" $build_features
}
