/* Reads lines, and writes the value of the expression on each: numbers, + - * / %, brackets, and the variables a to z, which a line
   like `x = 6 * 7` sets. */
#include "service.h"

enum { LINE = 256 };

static int variables[26];
static char line[LINE];
static const char *at;
static const char *wrong;

static int read_line(void)
{
    int n = 0, c = getbyte();
    if (c < 0)
        return 0;
    while (c >= 0 && c != '\n') {
        if (n < LINE - 1)
            line[n++] = (char)c;
        c = getbyte();
    }
    line[n] = 0;
    at = line;
    wrong = 0;
    return 1;
}

static char next(void)
{
    while (*at == ' ')
        at++;
    return *at;
}

static int sum(void);

static int factor(void)
{
    char c = next();
    if (c >= '0' && c <= '9') {
        int n = 0;
        while (*at >= '0' && *at <= '9')
            n = 10 * n + (*at++ - '0');
        return n;
    }
    if (c >= 'a' && c <= 'z') {
        at++;
        return variables[c - 'a'];
    }
    switch (c) {
    case '-':
        at++;
        return -factor();
    case '+':
        at++;
        return factor();
    case '(': {
        int n;
        at++;
        n = sum();
        if (next() == ')')
            at++;
        else
            wrong = "a bracket is open";
        return n;
    }
    case 0:
        wrong = "something is missing";
        return 0;
    default:
        wrong = "nothing begins so";
        return 0;
    }
}

static int product(void)
{
    int n = factor();
    for (;;) {
        char c = next();
        int other;
        if (c != '*' && c != '/' && c != '%')
            return n;
        at++;
        other = factor();
        if (c == '*')
            n *= other;
        else if (other == 0)
            wrong = "a division by zero";
        else if (c == '/')
            n /= other;
        else
            n %= other;
    }
}

static int sum(void)
{
    int n = product();
    for (;;) {
        char c = next();
        if (c != '+' && c != '-')
            return n;
        at++;
        n = c == '+' ? n + product() : n - product();
    }
}

int main(void)
{
    int lines = 0;
    while (read_line()) {
        int *to = 0;
        int n;
        char c = next();
        if (c >= 'a' && c <= 'z') {
            const char *begin = at++;
            if (next() == '=') {
                at++;
                to = &variables[c - 'a'];
            } else {
                at = begin;
            }
        }
        n = sum();
        if (!wrong && next() != 0)
            wrong = "something stands behind";
        if (wrong) {
            puts(wrong);
        } else {
            if (to)
                *to = n;
            put_number(n);
            putchar('\n');
        }
        lines++;
    }
    return lines;
}
