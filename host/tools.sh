# shellcheck shell=bash
# Compilers, runners and counting, for the scripts beside it and for the gate, which source it with the repository's top as the working folder. Sourcing it changes
# nothing: a script says by need_.. what it needs, and only that installs.

# The machines that programs are built for: x86-64, on which the toolchain runs, and Arm as well where MYRTHAKEL_ARM is set. Arm's programs then run in an emulator.
machines=(x86_64)
[ -z "${MYRTHAKEL_ARM-}" ] || machines+=(aarch64)

warnings=(-Wall -Wextra -Wpedantic -Werror)

# --- What is needed

stop_without() { # WHAT PACKAGE..: says what is missing, and ends the script with status 2
    echo "$1 is missing, and cannot be installed here. On Debian: apt-get install ${*:2}" >&2
    exit 2
}

install_packages() { # WHAT PACKAGE..: says what is installed and what for, and installs it
    local what=$1
    shift
    if [ "$(id -u)" -ne 0 ] || ! command -v apt-get >/dev/null; then stop_without "$what" "$@"; fi
    echo "installing $* by apt-get: $what is missing" >&2
    case $* in *:arm64*) dpkg --add-architecture arm64 ;; esac
    { apt-get update -qq && DEBIAN_FRONTEND=noninteractive apt-get install -y -qq --no-install-recommends "$@"; } >/dev/null || stop_without "$what" "$@"
}

need() { # COMMAND PACKAGE..: a command, from Debian's packages where it is missing
    command -v "$1" >/dev/null && return
    install_packages "$@"
    command -v "$1" >/dev/null || stop_without "$@"
}

need_toolchain() {
    command -v rt >/dev/null && return
    echo "rt, of the Rattle toolchain, is missing: README.md names the kit, which runs on x86-64" >&2
    exit 2
}

need_c() { # MACHINE..: a C compiler for each, and an emulator of Arm
    local machine
    for machine in "$@"; do
        if [ "$machine" = x86_64 ]; then
            need cc gcc libc6-dev
        else
            need aarch64-linux-gnu-gcc gcc-aarch64-linux-gnu libc6-dev-arm64-cross
            need qemu-aarch64 qemu-user
        fi
    done
}

need_rust() { # MACHINE..: a Rust compiler for each, and a linker
    local machine packages
    need_c "$@"
    for machine in "$@"; do
        rust_compiler "$machine" >/dev/null && continue
        packages=(rustc)
        [ "$machine" = x86_64 ] || packages+=(libstd-rust-dev:arm64)
        install_packages "a Rust compiler for $machine" "${packages[@]}"
        rust_compiler "$machine" >/dev/null || stop_without "a Rust compiler for $machine" "${packages[@]}"
    done
}

need_all() { # what the host tests need
    need_toolchain
    need_rust "${machines[@]}"
    need g++ g++
    need pkg-config pkgconf
    (need tcpdump tcpdump) || true # the second judge of host/tests/capture-sums
}

# --- The toolchain, the library, and programs that link it

kit() { # prints the toolchain's folder
    dirname "$(dirname "$(readlink -f "$(command -v rt)")")"
}

toolchain() { # prints the folder of its compiler
    echo "$(kit)/toolchain"
}

library_folder() { # MACHINE: prints where host/build has the library that programs for it link
    if [ "$1" = x86_64 ]; then echo target/prefix/lib; else echo "target/prefix/lib/$1-linux-gnu"; fi
}

compile_c() { # MACHINE OUT SOURCE..: a program in C with the library
    local machine=$1 out=$2 compiler=(cc)
    shift 2
    [ "$machine" = x86_64 ] || compiler=("$machine-linux-gnu-gcc" -static)
    rm -f "$out"
    mkdir -p "$(dirname "$out")"
    "${compiler[@]}" -std=c11 "${warnings[@]}" -O2 "$@" "$(library_folder "$machine")/libmyrthakel.a" -o "$out"
}

rust_compiler() { # MACHINE: prints a Rust compiler that has the standard library for it. Debian's may have where another on the path has not
    local compiler
    for compiler in rustc /usr/bin/rustc; do
        command -v "$compiler" >/dev/null || continue
        [ ! -d "$("$compiler" --print sysroot)/lib/rustlib/$1-unknown-linux-gnu" ] || { echo "$compiler"; return; }
    done
    return 1
}

compile_rust() { # MACHINE OUT SOURCE [WORD..]: a program in Rust with the library
    local machine=$1 out=$2 compiler
    shift 2
    compiler=("$(rust_compiler "$machine")" --edition 2021 -C opt-level=3)
    [ "$machine" = x86_64 ] || compiler+=(--target "$machine-unknown-linux-gnu" -C "linker=$machine-linux-gnu-gcc")
    rm -f "$out"
    mkdir -p "$(dirname "$out")"
    "${compiler[@]}" "$@" -L "$(library_folder "$machine")" -lstatic=myrthakel -o "$out"
}

run_on() { # MACHINE PROGRAM ARGUMENT..
    local machine=$1
    shift
    if [ "$machine" = x86_64 ]; then "$@"; else "qemu-$machine" "$@"; fi
}

build_proved() { # NAME: proves a program of crates/ and builds it. rt says so on standard error, and runs it
    (cd "crates/$1" && rt run </dev/null >/dev/null)
}

run_proved() { # NAME: a program that was built so, on standard input
    "crates/$1/out/$1"
}

# --- Counting

passed=0
failed=0

# Adds what the last line 'N passed, M failed' of a log counts. A part counts as one failure more where there is no such line, where it counts nothing, and where the
# part ended with a status other than 0 although it counted no failure.
add_counts() { # NAME STATUS LOG
    local last more
    last=$(grep -E '^[0-9]+ passed, [0-9]+ failed$' "$3" | tail -n 1)
    more=${last#*passed, }
    if [ -z "$last" ] || [ "$last" = '0 passed, 0 failed' ] || { [ "$2" -ne 0 ] && [ "${more%% *}" -eq 0 ]; }; then
        echo "FAILED: $1 ended with status $2 and ${last:-no count}"
        failed=$((failed + 1))
    fi
    [ -n "$last" ] || return 0
    passed=$((passed + ${last%% *}))
    failed=$((failed + ${more%% *}))
}

end_count() { # the last line of all; its status says whether all passed, and that there was something to pass
    echo "$passed passed, $failed failed"
    [ "$failed" -eq 0 ] && [ "$passed" -gt 0 ]
}
