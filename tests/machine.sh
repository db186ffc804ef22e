# shellcheck shell=bash disable=SC2034 # the scripts that source it use what it sets
# How x86-64 code is run and made on this machine: the product's archive and programs are x86-64 code everywhere. On
# x86-64 it runs by itself, and gcc makes it; elsewhere it takes the emulator of the toolchain's kit, or else Debian's,
# and a cross compiler. Sourcing this file installs nothing.
#
#   x86_native      1 on x86-64, else 0
#   x86_run         array: runs a statically linked program, as in "${x86_run[@]}" PROGRAM
#   x86_run_shared  array: the same for a program that needs the dynamic linker
#   x86_cc          the C compiler
#   x86_needs       installs what of these is missing, after counting.sh

x86_run=()
x86_run_shared=()
if [[ $(uname -m) == x86_64 ]]; then
    x86_native=1
    x86_cc=gcc
else
    x86_native=0
    x86_cc=x86_64-linux-gnu-gcc
    kit=${RATTLE_HOME:-$(dirname "$(dirname "$(readlink -f "$(command -v rt)")")")}
    kit=$kit/on/$(uname -m)/toolchain
    if [[ -x $kit/bin/qemu-x86_64 ]]; then
        x86_run=("$kit/bin/qemu-x86_64")
        # As rt runs a program: with the kit's own dynamic linker and libraries.
        x86_run_shared=("${x86_run[@]}" "$kit/lib/ld-linux-x86-64.so.2" --library-path "$kit/lib")
    else
        x86_run=(qemu-x86_64)
        # Where libc6-amd64-cross puts the dynamic linker and the libraries.
        x86_run_shared=(qemu-x86_64 -L /usr/x86_64-linux-gnu)
    fi
fi

x86_needs() {
    if [[ $x86_native -eq 1 ]]; then
        needs gcc gcc libc6-dev
    else
        needs "$x86_cc" gcc-x86-64-linux-gnu libc6-dev-amd64-cross
        needs "${x86_run[0]}" qemu-user
    fi
}
