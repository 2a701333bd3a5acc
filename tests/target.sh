# shellcheck shell=sh disable=SC2034
# Sourced by the scripts that link the archive, which is x86-64 Linux code. Gives
#   cc    a C compiler for it: CC or cc on x86-64; elsewhere Debian's cross compiler (TARGET_CC), which links statically,
#         so that no x86-64 C library has to be installed
#   run   runs one of its programs: as it is on x86-64; elsewhere in Debian's emulator
#   lack  nothing, or in one line what is missing here and what to install
cc=${CC:-cc} lack=''
run() { "$@"; }
case $(uname -sm) in
'Linux x86_64') ;;
Linux*)
    cross=${TARGET_CC:-x86_64-linux-gnu-gcc}
    cc="$cross -static"
    emulator=qemu-x86_64
    # The plainest processor: the C library's memory functions for newer ones take eight times as long in emulation.
    run() { "$emulator" -cpu qemu64 "$@"; }
    command -v "$emulator" >/dev/null || lack="no $emulator for the archive's x86-64 code (apt-get install qemu-user)"
    command -v "$cross" >/dev/null || lack="no $cross for the archive's x86-64 code (apt-get install gcc-x86-64-linux-gnu)"
    ;;
*) lack='the archive is for Linux' ;;
esac
