# Shared by the scripts that build and run what hosts link; sourced from the top folder, with the script's name in `script`.

fail() {
    printf '%s: %s\n' "$script" "$*" >&2
    exit 1
}

# The version of the header's structs.
abi_version() {
    sed -n 's/^#define FC_ABI_VERSION \([0-9][0-9]*\)$/\1/p' include/fantailclock.h
}

# A program, and Debian's packages that have it.
need() {
    local program=$1
    shift
    command -v "$program" >/dev/null && return
    command -v apt-get >/dev/null || fail "$program is missing"
    apt-get install -y --no-install-recommends "$@" || { apt-get update && apt-get install -y --no-install-recommends "$@"; } ||
        fail "$program is missing, and apt-get cannot install $*"
}
