# shellcheck shell=sh
# shellcheck disable=SC2154
# Sourced by ./lumbrisse and rust/check, which set `root` (the repository's root) and `name` (what their messages start
# with): builds the archive of the proved reader, and calls cargo for x86-64, which is what the archive has code for. On
# any other processor Debian's cross compiler and x86-64 Rust library build and qemu-user runs; where these are missing,
# root gets them installed and everybody else is told their names.

archive=$root/target/staticlib/liblumbrisse.a
target=x86_64-unknown-linux-gnu
log=$root/target/$(basename "$name").log
# What is built is linked with this repository's own archive, and lies in cargo's usual folders.
unset LUMBRISSE_LIB_DIR CARGO_TARGET_DIR CARGO_BUILD_TARGET
export CARGO_NET_OFFLINE=true

say() { printf '%s: %s\n' "$name" "$*" >&2; }

fail() {
    say "$*"
    exit 2
}

# step WHAT COMMAND..: says what is done and runs the command with what it writes in the log, whose end is shown where
# the command fails.
step() {
    say "$1"
    what=$1
    shift
    mkdir -p "$root/target"
    "$@" >"$log" 2>&1 && return
    tail -n 40 "$log" >&2
    fail "failed: $what (all of it: $log)"
}

# Whether a built file is missing, or older than a file that it is built from. What rt makes of a crate, its folder out/,
# is none.
outdated() {
    built=$1
    shift
    [ ! -f "$built" ] ||
        [ -n "$(find "$@" -name out -prune -o -type f -newer "$built" -print 2>/dev/null | head -n 1)" ]
}

# The archive, where it is outdated: rt's own lines are shown, as the first time takes long. rt leaves
# liblumbrisse_c.a beside the crate.
need_archive() {
    outdated "$archive" "$root/crates" "$root/crates.txt" || return 0
    command -v rt >/dev/null 2>&1 || fail "the Rattle kit is missing: there is no rt on the path"
    say "proving and compiling the reader (rt lib in crates/lumbrisse_c)"
    mkdir -p "$(dirname "$archive")"
    { (cd "$root/crates/lumbrisse_c" && rt lib 2>&1) && echo "$name: built"; } | tee "$log" | grep '^rt:' >&2 || :
    [ "$(tail -n 1 "$log")" = "$name: built" ] || fail "rt lib failed in crates/lumbrisse_c: see $log"
    cp "$root/crates/lumbrisse_c/out/liblumbrisse_c.a" "$archive"
}

has_cross() {
    [ -x /usr/bin/cargo ] && [ -x /usr/bin/x86_64-linux-gnu-gcc ] && [ -x /usr/bin/qemu-x86_64 ] &&
        ls "$(/usr/bin/rustc --print target-libdir --target "$target" 2>/dev/null)"/libstd-*.rlib >/dev/null 2>&1
}

# The packages by name. Where Debian has a newer Rust beside the release's own, that is the one ending in -web.
cross_packages() {
    web=''
    ! apt-cache show rustc-web >/dev/null 2>&1 || web=-web
    echo "rustc$web cargo$web libstd-rust$web-dev:amd64 gcc-x86-64-linux-gnu qemu-user"
}

install_cross() {
    command -v apt-get >/dev/null 2>&1 || fail "on $(uname -m) this script needs Debian's packages: $(cross_packages)"
    if [ "$(id -u)" -ne 0 ]; then
        fail "on $(uname -m) run as root, once: dpkg --add-architecture amd64 && apt-get update && apt-get install $(cross_packages)"
    fi
    step "adding Debian's packages for x86-64" dpkg --add-architecture amd64
    step "looking which there are" apt-get update
    packages=$(cross_packages)
    # the names are words
    # shellcheck disable=SC2086
    step "installing $packages" env DEBIAN_FRONTEND=noninteractive apt-get install -y $packages
}

# On this processor: what a built program is run by, where cargo puts it, whether cargo is there, cargo itself, and
# cargo with one of its tools (fmt, clippy).
# shellcheck disable=SC2034
case $(uname -m) in
x86_64)
    emulator=''
    release=$root/rust/target/release
    need_cargo() { command -v cargo >/dev/null 2>&1 || fail "Rust is missing: there is no cargo on the path"; }
    cargo_x86() { cargo "$@"; }
    cargo_tool() { cargo "$@"; }
    ;;
*)
    emulator=/usr/bin/qemu-x86_64
    release=$root/rust/target/$target/release
    need_cargo() { has_cross || install_cross; }
    cargo_x86() {
        env PATH=/usr/bin:/bin RUSTC=/usr/bin/rustc CARGO_BUILD_TARGET="$target" \
            CARGO_TARGET_X86_64_UNKNOWN_LINUX_GNU_LINKER=x86_64-linux-gnu-gcc \
            CARGO_TARGET_X86_64_UNKNOWN_LINUX_GNU_RUNNER="$emulator" cargo "$@"
    }
    # The tools are those of this machine's own cargo, as Debian's need not have them. Clippy then compiles for this
    # processor, for which the archive has no code: nothing is linked, so the script that looks for it is left out.
    cargo_tool() {
        tool=$1
        shift
        if [ "$tool" = clippy ]; then
            own=$(rustc -vV | sed -n 's/^host: //p')
            set -- --config "target.$own.lumbrisse.rustc-link-search=[]" "$@"
        fi
        cargo "$tool" "$@"
    }
    ;;
esac

# Runs a program that cargo_x86 built.
run_x86() { ${emulator:+"$emulator"} "$@"; }
