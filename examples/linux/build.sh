#!/bin/sh
# Builds the kernel `vmlinux` in FOLDER from Debian's package linux-source-6.1, with the files beside this script.
#
#     build.sh FOLDER
#
# Wants the packages linux-source-6.1 gcc-or1k-elf binutils-or1k-elf make gcc libc6-dev flex bison bc xz-utils.
set -e
here=$(cd "$(dirname "$0")" && pwd)
mkdir -p "${1:?build.sh FOLDER}"
folder=$(cd "$1" && pwd)
cd "$folder"
source=$folder/linux-source-6.1
[ -d "$source" ] || tar xf /usr/src/linux-source-6.1.tar.xz

# Pages have 8192 bytes, and a program may not begin in the first.
or1k-elf-gcc -Os -Wall -ffreestanding -nostdlib -static -Wl,-z,max-page-size=8192,-Ttext=0x10000,-e,_start \
    -o init "$here/init.c"
cat > initramfs.list <<END
dir /dev 0755 0 0
nod /dev/console 0600 0 0 c 5 1
file /init $folder/init 0755 0 0
END
cp "$here/board.dts" "$source/arch/openrisc/boot/dts/or1k_board.dts"
cp "$here/tiny.config" wanted.config
echo "CONFIG_INITRAMFS_SOURCE=\"$folder/initramfs.list\"" >> wanted.config

build() {
    make -C "$source" O="$folder/out" ARCH=openrisc CROSS_COMPILE=or1k-elf- "$@"
}
build KCONFIG_ALLCONFIG="$folder/wanted.config" allnoconfig
# Kconfig drops what it cannot have without a word: tell it.
grep '^CONFIG' wanted.config | while read -r wish; do
    grep -qxF "$wish" out/.config || echo "not taken: $wish"
done
build -j"${JOBS:-2}" vmlinux
cp out/vmlinux vmlinux
