# Sourced by what builds or runs programs for x86-64, which is what the toolchain compiles for. On such a processor nothing is done. On another
# one the kernel is told to run them under an emulator (qemu-user, by binfmt_misc), and what that and the compilers for x86-64 need is installed
# by package name where it is missing, as root.
rust_target=()
sanitizers=address,undefined

if [ "$(uname -m)" != x86_64 ]; then
    dpkg --print-foreign-architectures | grep -qx amd64 || dpkg --add-architecture amd64
    "$(dirname "${BASH_SOURCE[0]}")/packages" qemu-user-static binfmt-support gcc-x86-64-linux-gnu g++-x86-64-linux-gnu \
        libc6:amd64 libgcc-s1:amd64 libstdc++6:amd64 libubsan1:amd64 libstd-rust-dev:amd64 || exit 2
    [ -e /proc/sys/fs/binfmt_misc/qemu-x86_64 ] || update-binfmts --enable qemu-x86_64 || exit 2
    rust_target=(--target x86_64-unknown-linux-gnu -C linker=x86_64-linux-gnu-gcc)
    # The address sanitizer does not survive its own start under the emulator.
    sanitizers=undefined
fi

# x86_compilers FOLDER: cc, gcc and g++ build for x86-64 from here on; on another processor they are links in that folder.
x86_compilers() {
    local name
    [ "$(uname -m)" != x86_64 ] || return 0
    for name in cc gcc g++; do
        ln -sf "$(command -v "x86_64-linux-gnu-${name/#cc/gcc}")" "$1/$name"
    done
    PATH=$1:$PATH
}
