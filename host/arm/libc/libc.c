/*
 * What lfa.h, the programs of host/c and digest.c use of a C library, and the start of a program, for Linux on AArch64: so their runs
 * need nothing but the kit's clang and qemu-aarch64.
 */
#include <stdint.h>
#include <stdio.h>
#include <string.h>

int main(void);

enum { SYSTEM_WRITE = 64, SYSTEM_EXIT = 93, STANDARD_OUTPUT = 1 };

static uint64_t system_call(uint64_t function, uint64_t first, uint64_t second, uint64_t third)
{
    register uint64_t x8 __asm__("x8") = function;
    register uint64_t x0 __asm__("x0") = first;
    register uint64_t x1 __asm__("x1") = second;
    register uint64_t x2 __asm__("x2") = third;
    __asm__ volatile("svc #0" : "+r"(x0) : "r"(x8), "r"(x1), "r"(x2) : "memory");
    return x0;
}

__attribute__((noreturn)) static void end(int status)
{
    for (;;) system_call(SYSTEM_EXIT, (uint64_t)status, 0, 0);
}

__attribute__((noreturn)) void _start(void)
{
    end(main());
}

void *memcpy(void *restrict to, const void *restrict from, size_t length)
{
    for (size_t i = 0; i < length; i++) ((uint8_t *)to)[i] = ((const uint8_t *)from)[i];
    return to;
}

void *memset(void *at, int byte, size_t length)
{
    for (size_t i = 0; i < length; i++) ((uint8_t *)at)[i] = (uint8_t)byte;
    return at;
}

static void write_bytes(const char *bytes, size_t length)
{
    if (system_call(SYSTEM_WRITE, STANDARD_OUTPUT, (uint64_t)bytes, length) != length) end(2);
}

static void write_text(const char *text)
{
    size_t length = 0;
    while (text[length]) length++;
    write_bytes(text, length);
}

static void write_number(uint64_t number, uint64_t base)
{
    char digits[20];
    size_t first = sizeof digits;
    do {
        digits[--first] = "0123456789abcdef"[number % base];
        number /= base;
    } while (number != 0);
    write_bytes(digits + first, sizeof digits - first);
}

int printf(const char *format, ...)
{
    __builtin_va_list arguments;
    __builtin_va_start(arguments, format);
    for (const char *at = format; *at; at++) {
        if (*at != '%') {
            write_bytes(at, 1);
            continue;
        }
        int wide = at[1] == 'l' || at[1] == 'z';
        at += 1 + wide;
        if (*at == 's') write_text(__builtin_va_arg(arguments, const char *));
        else if (wide && (*at == 'u' || *at == 'x')) write_number(__builtin_va_arg(arguments, uint64_t), *at == 'u' ? 10 : 16);
        else if (*at == 'u' || *at == 'd') write_number(__builtin_va_arg(arguments, unsigned), 10);
        else end(2);
    }
    __builtin_va_end(arguments);
    return 0;
}
