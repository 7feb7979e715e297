#!/bin/sh
# make.sh: makes functions.elf by clang and lld 14.0.6, and calls.elf by riscv64-linux-gnu-gcc 12.2.0. GNU's tools make one instruction of a call.
set -e
cd "$(dirname "$0")"
clang --target=riscv64 -march=rv64imac -mabi=lp64 -O2 -ffreestanding -fno-unroll-loops -static -nostdlib -fuse-ld=lld -Wl,-e,lowest_bit -Wl,--build-id=none -o functions.elf functions.c
riscv64-linux-gnu-gcc -march=rv64imc -mabi=lp64 -O2 -ffreestanding -static -nostdlib -Wl,-e,perimeter -Wl,--build-id=none -o calls.elf calls.c
