# shellcheck shell=sh disable=SC2034 # what is set here is used there
# host/toolchain.sh: read by host/test and bench/run, in the repository's root. The library is code for
# x86-64, and so is the kit that makes it: on another machine nothing is built.

# Whether a file is there and nothing that it is made of has changed since.
up_to_date() { # FILE
    [ -f "$1" ] && [ -z "$(find crates crates.txt bench/calls.rattle -name out -prune -o -type f -newer "$1" -print)" ]
}

# The proved library, where it is not to be had elsewhere: rt makes it of the crate twin_c, and it is known as libtwin.a.
make_library() {
    if [ -n "${DRAMULENZ_LIB_DIR:-}" ] || up_to_date target/staticlib/libtwin.a; then return 0; fi
    mkdir -p target/log target/staticlib
    if (cd crates/twin_c && rt lib) >target/log/staticlib 2>&1; then
        cp crates/twin_c/out/libtwin_c.a target/staticlib/libtwin.a
        return 0
    fi
    tail -n 5 target/log/staticlib >&2
    return 1
}

# Sets rust, the rustc to call, and gcc, if there is one. Where something is missing: sets missing to what it is, and is false.
find_toolchain() {
    rust='' gcc='' missing=''
    command -v rt >/dev/null || missing='there is no rt'
    command -v cargo >/dev/null || missing='there is no cargo'
    rust=$(command -v rustc) || missing='there is no rustc'
    gcc=$(command -v gcc || :)
    [ "$(uname -m)" = x86_64 ] || missing='it is code for x86-64'
    [ -z "$missing" ]
}
