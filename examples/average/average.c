// The average of two numbers, rounded down, without their sum, which may not fit a word. average.elf was made of this file with clang and lld 14.0.6, by
//
//   clang --target=riscv64 -march=rv64imac -mabi=lp64 -O1 -ffreestanding -nostdlib -fuse-ld=lld -Wl,-e,average -Wl,--build-id=none -o average.elf average.c
unsigned long average(unsigned long a, unsigned long b) {
    return (a & b) + ((a ^ b) >> 1);
}
