// Small functions of the kind that real programs hold. functions.elf was made of this file with riscv64-linux-gnu-gcc 12.2.0, by
//
//   riscv64-linux-gnu-gcc -O2 -march=rv64imc -mabi=lp64 -ffreestanding -fno-ipa-icf -nostdlib -static -Wl,-e,absolute -Wl,--build-id=none -o functions.elf functions.c
//
// A name that ends in another word for the same is another way to compute it: smt.py asks solvers whether both agree.

typedef unsigned long word;
typedef unsigned int half;
typedef unsigned char byte;

// ---- signs, bounds, comparisons

long absolute(long a) {
    return a < 0 ? -a : a;
}

long absolute_by_mask(long a) {
    long mask = a >> 63;
    return (a ^ mask) - mask;
}

int absolute_int(int a) {
    return a < 0 ? -a : a;
}

long sign(long a) {
    return a < 0 ? -1 : a > 0;
}

long sign_by_shifts(long a) {
    return (a >> 63) | (long)((word)-a >> 63);
}

long smaller(long a, long b) {
    return a < b ? a : b;
}

long smaller_by_mask(long a, long b) {
    return b ^ ((a ^ b) & -(long)(a < b));
}

word larger_unsigned(word a, word b) {
    return a > b ? a : b;
}

long clamp(long a, long low, long high) {
    if (a < low) {
        return low;
    }
    if (a > high) {
        return high;
    }
    return a;
}

long median(long a, long b, long c) {
    if (a > b) {
        long t = a;
        a = b;
        b = t;
    }
    if (b > c) {
        b = c;
    }
    return a > b ? a : b;
}

long compare(long a, long b) {
    return (a > b) - (a < b);
}

long compare_by_difference(long a, long b) {
    return a - b;
}

word difference(word a, word b) {
    return a > b ? a - b : b - a;
}

int same_sign(long a, long b) {
    return (a ^ b) >= 0;
}

word choose(word condition, word a, word b) {
    return condition ? a : b;
}

word choose_by_mask(word condition, word a, word b) {
    word mask = -(word)(condition != 0);
    return (a & mask) | (b & ~mask);
}

// ---- sums, products, quotients

word saturating_sum(word a, word b) {
    word total = a + b;
    return total < a ? ~0UL : total;
}

long saturating_sum_signed(long a, long b) {
    long total = (long)((word)a + (word)b);
    if (((a ^ total) & (b ^ total)) < 0) {
        return a < 0 ? -0x7fffffffffffffffL - 1 : 0x7fffffffffffffffL;
    }
    return total;
}

word saturating_difference(word a, word b) {
    return a > b ? a - b : 0;
}

word average(word a, word b) {
    return (a & b) + ((a ^ b) >> 1);
}

word average_by_sum(word a, word b) {
    return (a + b) / 2;
}

word round_up(word a, word power) {
    return (a + power - 1) & -power;
}

long eighth(long a) {
    return a / 8;
}

long eighth_by_shift(long a) {
    return a >> 3;
}

long rest_of_eight(long a) {
    return a % 8;
}

word ten_times(word a) {
    return a * 10;
}

word ten_times_by_shifts(word a) {
    return ((a << 2) + a) << 1;
}

half tenth(half a) {
    return a / 10;
}

half tenth_of_byte(half a) {
    return (a & 0xff) * 205 >> 11;
}

word upper_product(word a, word b) {
    return (word)((unsigned __int128)a * b >> 64);
}

word upper_product_by_halves(word a, word b) {
    word low = (a & 0xffffffff) * (b & 0xffffffff);
    word first = (a >> 32) * (b & 0xffffffff) + (low >> 32);
    word second = (a & 0xffffffff) * (b >> 32) + (first & 0xffffffff);
    return (a >> 32) * (b >> 32) + (first >> 32) + (second >> 32);
}

int is_leap(half year) {
    return year % 4 == 0 && (year % 100 != 0 || year % 400 == 0);
}

int is_leap_by_bits(half year) {
    return (year & (year % 25 == 0 ? 15 : 3)) == 0;
}

// ---- bits

word count_ones(word a) {
    a = a - (a >> 1 & 0x5555555555555555);
    a = (a & 0x3333333333333333) + (a >> 2 & 0x3333333333333333);
    a = (a + (a >> 4)) & 0x0f0f0f0f0f0f0f0f;
    return a * 0x0101010101010101 >> 56;
}

word count_ones_by_sums(word a) {
    a = (a & 0x5555555555555555) + (a >> 1 & 0x5555555555555555);
    a = (a & 0x3333333333333333) + (a >> 2 & 0x3333333333333333);
    a = (a & 0x0f0f0f0f0f0f0f0f) + (a >> 4 & 0x0f0f0f0f0f0f0f0f);
    a = (a & 0x00ff00ff00ff00ff) + (a >> 8 & 0x00ff00ff00ff00ff);
    a = (a & 0x0000ffff0000ffff) + (a >> 16 & 0x0000ffff0000ffff);
    return (a & 0xffffffff) + (a >> 32);
}

word parity(word a) {
    a ^= a >> 32;
    a ^= a >> 16;
    a ^= a >> 8;
    a ^= a >> 4;
    a ^= a >> 2;
    return (a ^ a >> 1) & 1;
}

word parity_by_table(word a) {
    a ^= a >> 32;
    a ^= a >> 16;
    a ^= a >> 8;
    a ^= a >> 4;
    return 0x6996 >> (a & 15) & 1;
}

word leading_zeros(word a) {
    word count = 0;
    if (a == 0) {
        return 64;
    }
    if (a >> 32 == 0) {
        count += 32;
        a <<= 32;
    }
    if (a >> 48 == 0) {
        count += 16;
        a <<= 16;
    }
    if (a >> 56 == 0) {
        count += 8;
        a <<= 8;
    }
    if (a >> 60 == 0) {
        count += 4;
        a <<= 4;
    }
    if (a >> 62 == 0) {
        count += 2;
        a <<= 2;
    }
    return count + (a >> 63 == 0);
}

word trailing_zeros(word a) {
    word count = 0;
    if (a == 0) {
        return 64;
    }
    if ((a & 0xffffffff) == 0) {
        count += 32;
        a >>= 32;
    }
    if ((a & 0xffff) == 0) {
        count += 16;
        a >>= 16;
    }
    if ((a & 0xff) == 0) {
        count += 8;
        a >>= 8;
    }
    if ((a & 15) == 0) {
        count += 4;
        a >>= 4;
    }
    if ((a & 3) == 0) {
        count += 2;
        a >>= 2;
    }
    return count + (~a & 1);
}

int is_power_of_two(word a) {
    return a != 0 && (a & (a - 1)) == 0;
}

word next_power_of_two(word a) {
    a--;
    a |= a >> 1;
    a |= a >> 2;
    a |= a >> 4;
    a |= a >> 8;
    a |= a >> 16;
    a |= a >> 32;
    return a + 1;
}

word lowest_one(word a) {
    return a & -a;
}

word rotate_left(word a, word count) {
    return a << (count & 63) | a >> (-count & 63);
}

word rotate_right(word a, word count) {
    return a >> (count & 63) | a << (-count & 63);
}

word reverse_bits(word a) {
    a = (a >> 1 & 0x5555555555555555) | (a & 0x5555555555555555) << 1;
    a = (a >> 2 & 0x3333333333333333) | (a & 0x3333333333333333) << 2;
    a = (a >> 4 & 0x0f0f0f0f0f0f0f0f) | (a & 0x0f0f0f0f0f0f0f0f) << 4;
    a = (a >> 8 & 0x00ff00ff00ff00ff) | (a & 0x00ff00ff00ff00ff) << 8;
    a = (a >> 16 & 0x0000ffff0000ffff) | (a & 0x0000ffff0000ffff) << 16;
    return a >> 32 | a << 32;
}

word swap_bytes(word a) {
    a = (a >> 8 & 0x00ff00ff00ff00ff) | (a & 0x00ff00ff00ff00ff) << 8;
    a = (a >> 16 & 0x0000ffff0000ffff) | (a & 0x0000ffff0000ffff) << 16;
    return a >> 32 | a << 32;
}

word gray(word a) {
    return a ^ a >> 1;
}

word gray_back(word a) {
    a ^= a >> 1;
    a ^= a >> 2;
    a ^= a >> 4;
    a ^= a >> 8;
    a ^= a >> 16;
    return a ^ a >> 32;
}

word spread(word a) {
    a &= 0xffffffff;
    a = (a | a << 16) & 0x0000ffff0000ffff;
    a = (a | a << 8) & 0x00ff00ff00ff00ff;
    a = (a | a << 4) & 0x0f0f0f0f0f0f0f0f;
    a = (a | a << 2) & 0x3333333333333333;
    return (a | a << 1) & 0x5555555555555555;
}

word gather(word a) {
    a &= 0x5555555555555555;
    a = (a | a >> 1) & 0x3333333333333333;
    a = (a | a >> 2) & 0x0f0f0f0f0f0f0f0f;
    a = (a | a >> 4) & 0x00ff00ff00ff00ff;
    a = (a | a >> 8) & 0x0000ffff0000ffff;
    return (a | a >> 16) & 0xffffffff;
}

word zero_byte(word a) {
    return (a - 0x0101010101010101) & ~a & 0x8080808080808080;
}

// ---- hashes, checks, characters

word mix(word a) {
    a ^= a >> 33;
    a *= 0xff51afd7ed558ccd;
    a ^= a >> 33;
    a *= 0xc4ceb9fe1a85ec53;
    return a ^ a >> 33;
}

word mix_bits(word a) {
    a ^= a << 13;
    a ^= a >> 7;
    return a ^ a << 17;
}

half check_step(half sum, byte next) {
    sum ^= next;
    sum = sum & 1 ? sum >> 1 ^ 0xedb88320 : sum >> 1;
    sum = sum & 1 ? sum >> 1 ^ 0xedb88320 : sum >> 1;
    sum = sum & 1 ? sum >> 1 ^ 0xedb88320 : sum >> 1;
    return sum & 1 ? sum >> 1 ^ 0xedb88320 : sum >> 1;
}

half check_step_by_mask(half sum, byte next) {
    sum ^= next;
    sum = sum >> 1 ^ (0xedb88320 & -(sum & 1));
    sum = sum >> 1 ^ (0xedb88320 & -(sum & 1));
    sum = sum >> 1 ^ (0xedb88320 & -(sum & 1));
    return sum >> 1 ^ (0xedb88320 & -(sum & 1));
}

int is_letter(int c) {
    return (c >= 'a' && c <= 'z') || (c >= 'A' && c <= 'Z');
}

int is_letter_by_case(int c) {
    return (half)(c | 32) - 'a' < 26;
}

int hexadecimal(int c) {
    if (c >= '0' && c <= '9') {
        return c - '0';
    }
    if (c >= 'a' && c <= 'f') {
        return c - 'a' + 10;
    }
    if (c >= 'A' && c <= 'F') {
        return c - 'A' + 10;
    }
    return -1;
}

int hexadecimal_digit(int value) {
    return value < 10 ? '0' + value : 'a' + value - 10;
}

int is_space(int c) {
    return c == ' ' || c == '\t' || c == '\n' || c == '\v' || c == '\f' || c == '\r';
}

// ---- loads and stores

struct account {
    long balance;
    int count;
    short limit;
    byte is_open;
};

int withdraw(struct account *from, long amount) {
    if (!from->is_open || amount > from->balance) {
        return 0;
    }
    from->balance -= amount;
    from->count++;
    return 1;
}

void transfer(struct account *from, struct account *to, long amount) {
    from->balance -= amount;
    to->balance += amount;
}

void swap(word *a, word *b) {
    word t = *a;
    *a = *b;
    *b = t;
}

void swap_by_xor(word *a, word *b) {
    *a ^= *b;
    *b ^= *a;
    *a ^= *b;
}

half load_big_endian(const byte *from) {
    return (half)from[0] << 24 | (half)from[1] << 16 | (half)from[2] << 8 | from[3];
}

void store_big_endian(byte *to, half a) {
    to[0] = (byte)(a >> 24);
    to[1] = (byte)(a >> 16);
    to[2] = (byte)(a >> 8);
    to[3] = (byte)a;
}

void sort_three(long *a) {
    long t;
    if (a[0] > a[1]) {
        t = a[0];
        a[0] = a[1];
        a[1] = t;
    }
    if (a[1] > a[2]) {
        t = a[1];
        a[1] = a[2];
        a[2] = t;
    }
    if (a[0] > a[1]) {
        t = a[0];
        a[0] = a[1];
        a[1] = t;
    }
}

word equal_bytes(const byte *a, const byte *b) {
    byte differs = 0;
    differs |= a[0] ^ b[0];
    differs |= a[1] ^ b[1];
    differs |= a[2] ^ b[2];
    differs |= a[3] ^ b[3];
    return differs == 0;
}

// ---- loops, which no script tells

word count_ones_by_loop(word a) {
    word count = 0;
    while (a != 0) {
        a &= a - 1;
        count++;
    }
    return count;
}

word sum(const word *numbers, word count) {
    word total = 0;
    for (word i = 0; i < count; i++) {
        total += numbers[i];
    }
    return total;
}
