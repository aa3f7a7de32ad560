# Compilers for x86-64 and the way to run what they make; for scripts, which source it and then call `cross_setup`.
#
# It sets and exports
#   CC, AR, OBJDUMP   the C compiler, the archiver and the disassembler for x86-64
#   CARGO, RUSTC      cargo and the Rust compiler; cargo builds for $CROSS_TARGET, into TARGET_DIR/$CROSS_TARGET
#   RUN               the words to put before an x86-64 program to run it; none on x86-64: $RUN ./program
# On x86-64 these are the machine's own. Elsewhere they are Debian's cross compilers and emulator, and what is missing is
# installed; this needs Debian 12 or later and the right to install packages.

CROSS_TARGET=x86_64-unknown-linux-gnu

# The packages: compilers for C and Rust, the libraries of both for x86-64, and the emulator. The kit's own emulator
# can't stand in for the last: it stops at a program that reads /proc/self/maps, and every Rust program does.
CROSS_PACKAGES='gcc-x86-64-linux-gnu libc6-dev-amd64-cross libc6:amd64 rustc cargo libstd-rust-dev:amd64 qemu-user'

cross_fail() {
    echo "tools/cross.sh: $*" >&2
    exit 2
}

# The first of some commands that the machine has.
cross_first() {
    for cross_name in "$@"; do
        command -v "$cross_name" && return 0
    done
    cross_fail "none of these commands is here: $*"
}

# Whether a package is installed.
cross_has() {
    dpkg-query -W -f '${Status}' "$1" 2>/dev/null | grep -q ' installed$'
}

# Installs the packages that are missing.
cross_install() {
    cross_missing=''
    for cross_name in $CROSS_PACKAGES; do
        cross_has "$cross_name" || cross_missing="$cross_missing $cross_name"
    done
    [ -n "$cross_missing" ] || return 0
    echo "tools/cross.sh: installing$cross_missing" >&2
    dpkg --add-architecture amd64
    apt-get -qq update >&2
    # shellcheck disable=SC2086 # one word for each package
    DEBIAN_FRONTEND=noninteractive apt-get -qq install -y --no-install-recommends $cross_missing >&2
}

# The machine's own compilers, where it is an x86-64.
cross_native() {
    CC=${CC:-$(cross_first cc gcc clang)}
    AR=${AR:-$(cross_first ar)}
    OBJDUMP=$(cross_first objdump llvm-objdump)
    CARGO=${CARGO:-$(cross_first cargo)}
    RUSTC=${RUSTC:-$(cross_first rustc)}
    RUN=''
}

# Debian's cross compilers. /usr/bin/rustc goes by its path, as a rustc from elsewhere may have no library for x86-64.
cross_debian() {
    command -v dpkg >/dev/null || cross_fail "this machine is no x86-64, and has no Debian packages"
    cross_install
    CC=x86_64-linux-gnu-gcc
    AR=x86_64-linux-gnu-ar
    OBJDUMP=x86_64-linux-gnu-objdump
    CARGO=/usr/bin/cargo
    RUSTC=/usr/bin/rustc
    RUN='/usr/bin/qemu-x86_64 -L /'
    CARGO_TARGET_X86_64_UNKNOWN_LINUX_GNU_LINKER=$CC
    CARGO_TARGET_X86_64_UNKNOWN_LINUX_GNU_RUNNER=$RUN
    export CARGO_TARGET_X86_64_UNKNOWN_LINUX_GNU_LINKER CARGO_TARGET_X86_64_UNKNOWN_LINUX_GNU_RUNNER
}

cross_setup() {
    case $(uname -m) in
        x86_64) cross_native ;;
        *) cross_debian ;;
    esac
    CARGO_BUILD_TARGET=$CROSS_TARGET
    export CC AR OBJDUMP CARGO RUSTC RUN CROSS_TARGET CARGO_BUILD_TARGET
}
