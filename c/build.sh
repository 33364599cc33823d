# Sourced in the repository's root: the compilers, and how C over the proved library is built. Products go to target/c.
. tools/kit.sh
out=target/c
archive=$out/libliftlog.a
cc=gcc
cxx=g++
cc_packages='gcc libc6-dev'
cxx_packages='g++'
warnings='-Wall -Wextra -Werror'
mkdir -p "$out"

# need PACKAGES COMMAND: installs the packages unless the command is there.
need() {
    ! command -v "$2" >/dev/null || return 0
    as_root=$([ "$(id -u)" = 0 ] || echo sudo)
    $as_root apt-get -qq update >&2
    $as_root apt-get -qq install -y $1 >&2
}

# logged NAME COMMAND..: what the command prints goes to target/c/NAME.log, and is shown only if it fails.
logged() {
    log=$out/$1.log
    shift
    "$@" </dev/null >"$log" 2>&1 || { cat "$log" >&2; return 1; }
}

# is_newer PRODUCT SOURCE..: whether the product is there and none of the sources, or of the files in them, is newer.
is_newer() {
    product=$1
    shift
    [ -e "$product" ] && [ -z "$(find "$@" -type f -newer "$product")" ]
}

# compile PROGRAM FILE..: C over the header and the lists, linked statically with the archive; done again when a file of c/ is newer.
compile() {
    ! is_newer "$1" c "$archive" || return 0
    need "$cc_packages" "$cc"
    "$cc" -std=c11 -O2 $warnings -Ic/include -Ic -static -o "$@" "$archive"
}

# The example programs: box, and live, which prints what is in a log.
examples() {
    c/archive
    compile "$out/box" c/examples/box.c c/examples/file.c
    compile "$out/live" c/examples/live.c
}
