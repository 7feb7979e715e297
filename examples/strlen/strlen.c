// How many characters stand before the first zero byte. strlen.elf was made of this file with clang and lld 14.0.6, by
//
//   clang --target=riscv64 -march=rv64imac -mabi=lp64 -O1 -ffreestanding -nostdlib -fuse-ld=lld -Wl,-e,strlen -Wl,--build-id=none -o strlen.elf strlen.c
unsigned long strlen(const char *text) {
    unsigned long length = 0;
    while (text[length] != 0) {
        length++;
    }
    return length;
}
