# Sourced by the scripts. A program made by rt is an x86-64 Linux program, dynamically linked to glibc: this file alone
# knows how such a program is run on this machine, and which Debian packages that and the tests need.

x86_64_root=/usr/x86_64-linux-gnu

# Each is THING=PACKAGE: a command or a file, and the package that brings it.
needed=(gcc=gcc /usr/include/stdio.h=libc6-dev make=make)

# emulator runs such a program; x86_64_tools stands before the name of a tool (gcc, nm, objdump) for such programs.
case $(uname -m) in
x86_64)
    emulator=()
    x86_64_tools=
    ;;
aarch64 | arm64)
    emulator=(qemu-x86_64 -L "$x86_64_root")
    x86_64_tools=x86_64-linux-gnu-
    needed+=(
        qemu-x86_64=qemu-user
        x86_64-linux-gnu-gcc=gcc-x86-64-linux-gnu
        "$x86_64_root/lib/ld-linux-x86-64.so.2=libc6-amd64-cross"
        "$x86_64_root/include/stdio.h=libc6-dev-amd64-cross"
    )
    ;;
*)
    echo "rt's programs are for x86-64, and on $(uname -m) there is no known way to run them" >&2
    exit 1
    ;;
esac

# Runs a program for x86-64. One that does not end within a minute, or within program_seconds, is stopped, with status 124.
run_program() { # PROGRAM [WORD..]
    timeout "${program_seconds:-60}" "${emulator[@]}" "$@"
}

# Prints the package of each thing that is not there.
missing_packages() { # THING=PACKAGE..
    local pair
    for pair in "$@"; do
        command -v "${pair%%=*}" >/dev/null || [ -e "${pair%%=*}" ] || echo "${pair#*=}"
    done
}

apt_install() { # PACKAGE..
    export DEBIAN_FRONTEND=noninteractive
    apt-get -qq update && apt-get -qq -y --no-install-recommends -o DPkg::Lock::Timeout=300 install "$@"
}

# Installs the package of each thing that is not there; or says what to install, and fails.
install_if_missing() { # THING=PACKAGE..
    local packages said
    mapfile -t packages < <(missing_packages "$@")
    [ "${#packages[@]}" -gt 0 ] || return 0
    echo "installing ${packages[*]}"
    if said=$(apt_install "${packages[@]}" 2>&1 </dev/null) && [ -z "$(missing_packages "$@")" ]; then return 0; fi
    printf '%s\n' "$said" "cannot install them here: please install these Debian packages: ${packages[*]}" >&2
    return 1
}

# Installs what the tests and the running of rt's programs need on this machine.
install_missing() { install_if_missing "${needed[@]}"; }
