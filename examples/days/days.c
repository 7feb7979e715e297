// The number of days of a month, 1 to 12, of a year that isn't a leap year; else 0. The table is in the file. days.elf was made with clang and lld 14.0.6, by
//
//   clang --target=riscv64 -march=rv64imac -mabi=lp64 -O1 -ffreestanding -nostdlib -fuse-ld=lld -Wl,-e,days -Wl,--build-id=none -o days.elf days.c
static const unsigned char table[12] = {31, 28, 31, 30, 31, 30, 31, 31, 30, 31, 30, 31};

unsigned long days(unsigned long month) {
    return month - 1 < 12 ? table[month - 1] : 0;
}
