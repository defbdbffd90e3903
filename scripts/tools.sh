# Sourced by the scripts: what they need beyond the Rattle kit comes from Debian's packages.

# need_packages COMMAND PACKAGE..: installs the packages where the command is missing, and says so in one line.
need_packages() {
    command -v "$1" >/dev/null 2>&1 && return 0
    shift
    install_packages "$@"
}

install_packages() {
    printf 'installing Debian packages: %s' "$*" >&2
    if apt-get install -y "$@" >/dev/null 2>&1 ||
        { apt-get update; apt-get install -y "$@"; } >/dev/null 2>&1; then
        echo >&2
    else
        echo ': failed; they are needed beyond the Rattle kit, install them as root' >&2
        return 1
    fi
}

# The C compiler: what CC says, which may have flags, or else cc.
compiler=(${CC:-cc})

need_compiler() {
    if [ -z "${CC:-}" ]; then
        need_packages cc gcc libc6-dev
    elif ! command -v "${compiler[0]}" >/dev/null 2>&1; then
        echo "CC is $CC: there is no such command" >&2
        return 1
    fi
}

# The folder of Debian's memchr sources, which the Rust under comparison uses.
memchr_source() {
    ls -d /usr/share/cargo/registry/memchr-2* 2>/dev/null | sort | tail -n 1
}

# Copies these sources to target/memchr, where harness/Cargo.toml has them: rt ci refuses a link anywhere in the repository's folder. They
# keep their times, so that cargo does not compile them anew.
copy_memchr() {
    [ -n "$(memchr_source)" ] || install_packages librust-memchr-dev || return 1
    rm -rf "$root/target/memchr"
    mkdir -p "$root/target" && cp -RLp "$(memchr_source)" "$root/target/memchr"
}
