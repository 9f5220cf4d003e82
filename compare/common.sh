# Shared by the scripts of this folder, which set `here` to it and source this file.

root=$(dirname "$here")
build=$root/target/compare
archive=${FANTAILCLOCK_ARCHIVE:-$root/target/staticlib/libfantailclock.a}

not_run() {
    echo "comparison NOT RUN: $*"
    exit 0
}

# Compiles one crate with rustc alone: the edition is fixed and every warning is an error, but for the published files.
compile() {
    rustc --edition 2021 -D warnings "$@"
}

# Without an archive there is nothing to compare, and that is a failure of the build before this one.
need_archive() {
    [ -f "$archive" ] && return
    echo "comparison: no archive $archive; build it first: bash scripts/build" >&2
    exit 1
}

# Compiles the program of src/$1.rs against the oracle of the folder $2; further words are rustc's.
oracle_program() {
    name=$1
    folder=$2
    shift 2
    compile -C opt-level=3 --extern oracle="$build/$folder/liboracle.rlib" -L dependency="$build" "$@" \
        -o "$build/$name" "$here/src/$name.rs"
}

# The same against the archive too.
program() {
    oracle_program "$1" "$2" -L native="$(dirname "$archive")" -l static=fantailclock
}

# Where a short loop lies in a line of 64 bytes can cost more than what is measured. An archive's functions begin at multiples of 16, so that code of this
# many bytes in front of them puts them at every place there is.
places="16 32 48 64"

# Makes the object $2, which has so many bytes, $1, of code in front of what is linked behind it. The symbol is for a linker that drops what nothing uses,
# and has to be told of a use.
pad() {
    printf '.section .note.GNU-stack,"",@progbits\n.section .text.pad,"ax"\n.globl archive_pad\narchive_pad: .skip %d\n' "$1" >"$2.s"
    cc -c "$2.s" -o "$2"
}

# Puts the one object of the archive $1, whatever its name there, into the folder $2 as fantailclock.o.
unpack() {
    mkdir -p "$2"
    [ "$(ar t "$1" | wc -l)" = 1 ] || { echo "$1 has more than one object, or none" >&2; exit 1; }
    ar p "$1" >"$2/fantailclock.o"
}

# Makes the list of calls and what `replay` must print of it, as stdin and stdout of the folder $1. The archive plays no
# part in it.
make_list() {
    oracle_program list checked
    mkdir -p "$1"
    "$build/list" "$1"
}
