/* The executive's services, by CHMK, and copies of bytes by the string instructions. */
#include "service.h"

enum { MOST = 65535 };

void exit(int status)
{
    register int r0 __asm__("r0") = status;
    __asm__ volatile("chmk $0" : : "r"(r0));
    __builtin_unreachable();
}

int putchar(int c)
{
    register int r0 __asm__("r0") = c;
    __asm__ volatile("chmk $1" : "+r"(r0) : : "memory");
    return c;
}

int getbyte(void)
{
    register int r0 __asm__("r0");
    __asm__ volatile("chmk $2" : "=r"(r0) : : "memory");
    return r0;
}

int write(const void *from, size_t n)
{
    register int r0 __asm__("r0") = (int)n;
    register const void *r1 __asm__("r1") = from;
    __asm__ volatile("chmk $3" : "+r"(r0) : "r"(r1) : "memory");
    return r0;
}

int puts(const char *text)
{
    write(text, strlen(text));
    putchar('\n');
    return 0;
}

void put_number(int n)
{
    char digits[12];
    char *p = digits + sizeof digits;
    unsigned rest = n < 0 ? 0u - (unsigned)n : (unsigned)n;
    do {
        *--p = (char)('0' + rest % 10);
        rest /= 10;
    } while (rest != 0);
    if (n < 0)
        *--p = '-';
    write(p, (size_t)(digits + sizeof digits - p));
}

size_t strlen(const char *text)
{
    const char *p = text;
    while (*p != 0)
        p++;
    return (size_t)(p - text);
}

/* MOVC3 moves as if at once, whichever way the two overlap; longer moves go piece by piece from the right end. */
static void move(char *to, const char *from, size_t n)
{
    __asm__ volatile("movc3 %0,(%1),(%2)"
                     :
                     : "g"(n), "r"(from), "r"(to)
                     : "r0", "r1", "r2", "r3", "r4", "r5", "memory");
}

void *memmove(void *to, const void *from, size_t n)
{
    char *t = to;
    const char *f = from;
    if (t <= f) {
        for (; n > MOST; n -= MOST, t += MOST, f += MOST)
            move(t, f, MOST);
        move(t, f, n);
    } else {
        while (n > MOST) {
            n -= MOST;
            move(t + n, f + n, MOST);
        }
        move(t, f, n);
    }
    return to;
}

void *memcpy(void *to, const void *from, size_t n)
{
    return memmove(to, from, n);
}

void *memset(void *to, int c, size_t n)
{
    char *t = to;
    while (n > 0) {
        size_t part = n > MOST ? MOST : n;
        __asm__ volatile("movc5 $0,(%1),%2,%0,(%1)"
                         :
                         : "g"(part), "r"(t), "g"((char)c)
                         : "r0", "r1", "r2", "r3", "r4", "r5", "memory");
        t += part;
        n -= part;
    }
    return to;
}

int memcmp(const void *a, const void *b, size_t n)
{
    const unsigned char *p = a, *q = b;
    for (; n > 0; n--, p++, q++)
        if (*p != *q)
            return *p - *q;
    return 0;
}

/* What GCC calls for a division of numbers without a sign: the machine divides numbers with one. */
unsigned __udiv(unsigned a, unsigned b)
{
    unsigned q, r;
    if ((int)b < 0)
        return a >= b;
    if ((int)a >= 0)
        return (unsigned)((int)a / (int)b);
    q = (unsigned)((int)(a >> 1) / (int)b) << 1;
    r = a - q * b;
    return r >= b ? q + 1 : q;
}

unsigned __urem(unsigned a, unsigned b)
{
    return a - __udiv(a, b) * b;
}
