# Debian's packages, for the scripts that read this file by `. "$root/checks/packages.sh"`; they have set root.
# shellcheck shell=sh disable=SC2154,SC2034

# packages NAME..: installs those that are missing. Where that fails, one line says so, and the script ends with 2.
packages() {
    missing=
    for package in "$@"; do
        case $(dpkg-query -W -f '<${db:Status-Status}>' "$package" 2>/dev/null) in
            *'<installed>'*) ;;
            *) missing="$missing $package" ;;
        esac
    done
    [ -n "$missing" ] || return 0
    log=$root/target/packages.log
    mkdir -p "$root/target"
    # shellcheck disable=SC2086
    {
        case "$missing " in *:amd64\ *) dpkg --add-architecture amd64 ;; esac
        apt-get update
        DEBIAN_FRONTEND=noninteractive apt-get -o DPkg::Lock::Timeout=300 install -y --no-install-recommends $missing
    } >"$log" 2>&1 </dev/null || {
        printf "%s: Debian's packages are missing, and apt-get did not install them (%s):%s\n" "$0" "$log" "$missing" >&2
        exit 2
    }
}

# need COMMAND PACKAGES..: the packages, where the command is missing.
need() {
    if command -v "$1" >/dev/null; then return; fi
    shift
    packages "$@"
}

# Ends the script where the kit is missing.
need_rt() {
    if ! command -v rt >/dev/null; then
        printf '%s: rt, the Rattle kit, is not on the path\n' "$0" >&2
        exit 2
    fi
}

# Ends the script where the archive, which is for x86-64, can't be run.
need_machine() {
    case $(uname -m) in
        x86_64 | aarch64) ;;
        *)
            printf '%s: this needs x86-64 or Arm, not %s\n' "$0" "$(uname -m)" >&2
            exit 2
            ;;
    esac
}

# Sets cargo, for programs that link the archive. On Arm it is Debian's own, which builds them for x86-64, and runs them
# under qemu-x86_64.
need_cargo() {
    cargo=cargo
    if [ "$(uname -m)" = x86_64 ]; then
        need cargo cargo
        return
    fi
    packages cargo rustc libstd-rust-dev:amd64 gcc-x86-64-linux-gnu libc6:amd64 libc6-dev:amd64 libgcc-s1:amd64 \
        qemu-user
    cargo=/usr/bin/cargo
    export RUSTC=/usr/bin/rustc RUSTDOC=/usr/bin/rustdoc CARGO_BUILD_TARGET=x86_64-unknown-linux-gnu
    export CARGO_TARGET_X86_64_UNKNOWN_LINUX_GNU_LINKER=x86_64-linux-gnu-gcc
    export CARGO_TARGET_X86_64_UNKNOWN_LINUX_GNU_RUNNER=qemu-x86_64
}
