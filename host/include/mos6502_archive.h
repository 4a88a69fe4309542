/* Two words that the header of each proved archive takes. */
#ifndef MOS6502_ARCHIVE_H
#define MOS6502_ARCHIVE_H

#include <stddef.h>
#include <stdint.h>

/* A size in a prototype: so many places are read or written, and a C compiler warns of an array that has fewer. C++ has no word for
 * that. */
#ifdef __cplusplus
#define MOS6502_AT_LEAST(count) count
#else
#define MOS6502_AT_LEAST(count) static count
#endif

/* Declares the function that only an archive of the header's version has, and has the program refer to it: with another archive it
 * does not link, and the linker prints that function's name; what to run is tools/build. Nobody has to call it. With `retain` the
 * linker's --gc-sections keeps the reference too; a compiler without that word (gcc before 11, clang before 13) leaves it to be
 * dropped there. */
#ifdef __has_attribute
#if __has_attribute(retain)
#define MOS6502_KEPT __attribute__((used, retain))
#endif
#endif
#if !defined MOS6502_KEPT && defined __GNUC__
#define MOS6502_KEPT __attribute__((used))
#endif
#ifdef MOS6502_KEPT
#define MOS6502_ASK_FOR(function) \
    uint8_t function(void);       \
    static uint8_t (*const function##_asked)(void) MOS6502_KEPT = function
#else
#define MOS6502_ASK_FOR(function) uint8_t function(void)
#endif

#endif
