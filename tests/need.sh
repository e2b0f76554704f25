# What the test scripts need and where they install it from. Sourced by them.

# need PROGRAM PACKAGE..: installs Debian's packages where the program is missing.
need() {
    program=$1
    shift
    command -v "$program" >/dev/null 2>&1 && return 0
    echo "installing $* for $program"
    apt-get update -qq && DEBIAN_FRONTEND=noninteractive apt-get install -y -qq "$@"
}

# need_emulator: what starts a program for x86-64 goes into `start`: nothing on an x86-64 machine, else an emulator. Rattle compiles for x86-64 alone.
need_emulator() {
    start=
    [ "$(uname -m)" = x86_64 ] && return 0
    need qemu-x86_64 qemu-user
    need /usr/x86_64-linux-gnu/lib64/ld-linux-x86-64.so.2 libc6-amd64-cross
    start="qemu-x86_64 -L /usr/x86_64-linux-gnu"
}

# need_x86: the tools that build for x86-64 go into `cc`, `cxx`, `nm`, `size`, and what starts a program so built into `start`: the machine's own, or
# Debian's cross compilers and an emulator.
need_x86() {
    need_emulator
    if [ -z "$start" ]; then
        need gcc gcc libc6-dev
        need g++ g++
        cc=gcc cxx=g++ nm=nm size=size
        return 0
    fi
    need x86_64-linux-gnu-gcc gcc-x86-64-linux-gnu libc6-dev-amd64-cross
    need x86_64-linux-gnu-g++ g++-x86-64-linux-gnu
    cc=x86_64-linux-gnu-gcc cxx=x86_64-linux-gnu-g++ nm=x86_64-linux-gnu-nm size=x86_64-linux-gnu-size
}

# need_rt: the Rattle toolchain, which nothing here installs.
need_rt() {
    command -v rt >/dev/null 2>&1 || { echo "$0: the Rattle toolchain's rt is not on the path"; exit 1; }
}

# What the toolchain makes, for the scripts that run at the top of the repository.
library=crates/calls/out/libcalls.a
executable=crates/freelist/out/freelist

# build_library LOG: proves the exported calls, and what they stand on, and makes the archive.
build_library() {
    (cd crates/calls && rt lib) >"$1" 2>&1 || { cat "$1"; exit 1; }
}

# build_program LOG: proves the program, and what it stands on, and makes it. rt also runs it, here on no input; on a machine that needs an emulator that
# run alone fails.
build_program() {
    rm -f "$executable"
    (cd crates/freelist && rt run </dev/null) >"$1" 2>&1 || { [ -n "$start" ] && [ -x "$executable" ]; } || { cat "$1"; exit 1; }
}
