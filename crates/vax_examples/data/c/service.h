/* What the executive does for a program, and what a compiler takes for granted. */
#ifndef SERVICE_H
#define SERVICE_H

typedef __SIZE_TYPE__ size_t;

/* Ends the run; status stands in R0 then. */
void exit(int status) __attribute__((noreturn));

/* Writes a byte to the console. */
int putchar(int c);

/* The next byte of the input, or -1 behind the last. */
int getbyte(void);

/* Writes n bytes, at most 65,535; 1 where they could be read, else 0. */
int write(const void *from, size_t n);

/* Writes a text and a line feed. */
int puts(const char *text);

/* Writes a number in decimal. */
void put_number(int n);

size_t strlen(const char *text);
void *memcpy(void *to, const void *from, size_t n);
void *memmove(void *to, const void *from, size_t n);
void *memset(void *to, int c, size_t n);
int memcmp(const void *a, const void *b, size_t n);

#endif
