/* Puts the primes below 100, some quotients and remainders, and a checksum over halfwords and bytes. Built for rv32im it
   runs on the machine; built with -DHOST it runs on the host. Both put the same bytes. */
#ifdef HOST
#include <stdio.h>
static void put(int byte) { putchar(byte); }
#else
static void put(int byte)
{
    register int a0 __asm__("a0") = byte;
    register int a7 __asm__("a7") = 1;
    __asm__ volatile("ecall" : : "r"(a0), "r"(a7) : "memory");
}

/* a1 is the region's end; the stack grows down from there. */
__asm__(".globl _start\n"
        "_start:\n"
        ".option push\n"
        ".option norelax\n"
        "    la gp, __global_pointer$\n"
        ".option pop\n"
        "    mv sp, a1\n"
        "    call main\n"
        "    li a7, 3\n"
        "    ecall\n");
#endif

static void put_number(int number)
{
    unsigned left = number < 0 ? 0u - (unsigned)number : (unsigned)number;
    char digits[12];
    int count = 0;
    do {
        digits[count++] = (char)('0' + left % 10);
        left /= 10;
    } while (left != 0);
    if (number < 0) {
        put('-');
    }
    while (count > 0) {
        put(digits[--count]);
    }
    put('\n');
}

static volatile unsigned char crossed[100];
static volatile short halves[64];
static volatile int operands[6] = {7, -7, 100, -100, 2147483647, -2147483647};

int main(void)
{
    for (int n = 2; n < 100; n++) {
        if (crossed[n] == 0) {
            put_number(n);
            for (int m = n * n; m < 100; m += n) {
                crossed[m] = 1;
            }
        }
    }
    for (int i = 0; i < 6; i++) {
        for (int j = 0; j < 6; j++) {
            put_number(operands[i] / operands[j]);
            put_number(operands[i] % operands[j]);
            put_number((int)(((long long)operands[i] * operands[j]) >> 32));
        }
    }
    int sum = 0;
    for (int i = 0; i < 64; i++) {
        halves[i] = (short)(i * 1021 - 30000);
        sum = sum * 31 + halves[i] + (signed char)crossed[i];
    }
    put_number(sum);
    return 0;
}
