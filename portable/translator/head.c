/* mscp.c: the command queue of an MSCP disk controller, in C for every machine: what mscp.h says, and nothing else.
 *
 * It was made by portable/make in the sources of the library, from the proved library's code for WebAssembly, so it is not
 * for editing. What is proved of that code, and how this file was tested: docs/PROVED.md there.
 *
 * Compile it with your program, as C99 or later: cc -O2 -c mscp.c. It asks nothing of an operating system, and of the C
 * library memcpy, memmove and memset. It has no state of its own that is ever written. */
#include "mscp.h"

/* A compiler that has the words of gcc for what C can't say. */
#if defined(__GNUC__) || defined(__clang__)
#define LIKE_GCC
#endif
/* Where a sanitizer asks whether an address is NULL, gcc warns of what would be moved there if it was. */
#if defined(__GNUC__) && !defined(__clang__)
#pragma GCC diagnostic ignored "-Warray-bounds"
#pragma GCC diagnostic ignored "-Wstringop-overflow"
#endif

typedef uint8_t u8;
typedef uint16_t u16;
typedef uint32_t u32;
typedef uint64_t u64;
typedef int8_t i8;
typedef int16_t i16;
typedef int32_t i32;
typedef int64_t i64;
#ifdef __SIZEOF_INT128__
__extension__ typedef unsigned __int128 u128;
#endif

/* What is asked of the compiler: numbers of two's complement, a shift to the right that keeps the sign, an int of 32 bits
 * or more, and handles as mscp.h says. */
typedef u8 numbers_are_known[(i32)0xFFFFFFFFu == -1 && (i8)0x80u == -128 && (i64)0xFFFFFFFFFFFFFFFEull >> 1 == -1 ? 1 : -1];
typedef u8 int_has_32_bits[sizeof(int) >= 4 ? 1 : -1];
typedef u8 handles_are_known[sizeof(struct mscp) == MSCP_HEAD && sizeof(struct mscp_host) == MSCP_HEAD &&
                             sizeof(struct mscp_port) == MSCP_HEAD ? 1 : -1];

/* A name of C, also if this is compiled as C++. */
#ifdef __cplusplus
#define NAME_OF_C extern "C"
#else
#define NAME_OF_C extern
#endif

/* Where it is proved that nobody comes. No way leads on from there, whatever the compiler knows of the function. */
#ifdef MSCP_TRAP
NAME_OF_C void MSCP_TRAP(void);
#define TRAP() for (;;) MSCP_TRAP()
#elif defined(LIKE_GCC)
#define TRAP() __builtin_trap()
#else
#include <stdlib.h>
#define TRAP() for (;;) abort()
#endif

/* How bytes are moved: by the compiler itself where it can be told so, as it then has no call for a few of them, also under
 * -ffreestanding, and needs no header of a C library. */
#ifdef LIKE_GCC
#define COPY __builtin_memcpy
#define MOVE __builtin_memmove
#define FILL __builtin_memset
#else
#include <string.h>
#define COPY memcpy
#define MOVE memmove
#define FILL memset
#endif

/* In memory the code's numbers have the low byte first. LITTLE is whether the machine's have, and ORDERED the other form of a
 * number of so many bits. Where the compiler can't be told to load one, or its order isn't known, as MSCP_BYTES says, numbers
 * are read and written byte by byte. */
#if (defined(_MSC_VER) || (defined(__BYTE_ORDER__) && __BYTE_ORDER__ == __ORDER_LITTLE_ENDIAN__)) && !defined(MSCP_BYTES)
#define LITTLE 1
#else
#define LITTLE 0
#endif
#if defined(LIKE_GCC) && LITTLE
#define ORDERED(bits, number) (number)
#elif defined(LIKE_GCC) && defined(__BYTE_ORDER__) && __BYTE_ORDER__ == __ORDER_BIG_ENDIAN__ && !defined(MSCP_BYTES)
#define ORDERED(bits, number) __builtin_bswap##bits(number)
#endif

/* The code's addresses have 64 bits, and are the machine's own. */
#define A(pointer) ((u64)(uintptr_t)(pointer))
#define P(address) ((u8 *)(uintptr_t)(address))

/* Whether the machine loads numbers only from addresses that their bytes divide. There the compiler is told which addresses
 * are known to be so, and a number at another one is loaded byte by byte. */
#if defined(LIKE_GCC) && (defined(MSCP_STRICT) || (defined(__arm__) && !defined(__ARM_FEATURE_UNALIGNED)) || \
                          defined(__riscv) || defined(__mips__) || defined(__sparc__) || defined(__hppa__) || \
                          defined(__sh__) || defined(__alpha__))
#define STRICT
#define AT(address, bytes) __builtin_assume_aligned(P(address), bytes)
#else
#define AT(address, bytes) P(address)
#endif

/* What a function has in memory, and the constants, which are aligned to 16. */
#ifdef LIKE_GCC
#define FIXED(name, bytes) __attribute__((aligned(16))) static const u8 name[bytes]
#define ROOM(name, bytes) __attribute__((aligned(16))) u8 name[bytes]
#else
#define FIXED(name, bytes) static const u8 name[bytes]
#define ROOM(name, bytes) \
    u64 name##_words[(bytes) / 8 + 2]; \
    u8 *const name = P((A(name##_words) + 15) & ~15ull)
#endif

/* A function that has much of it isn't built into another one, so that it gives it back: no call takes more of the stack
 * than mscp.h says. */
#if defined(LIKE_GCC)
#define APART __attribute__((noinline)) static
#elif defined(_MSC_VER)
#define APART __declspec(noinline) static
#else
#define APART static
#endif

/* Where mscp.h asks for it. Of libmscp.a nobody has this. */
NAME_OF_C void mscp_is_for_any_machine(void);
void mscp_is_for_any_machine(void) {}

