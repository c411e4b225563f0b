/* Paragraphs of mscp.c, of which it has those that it calls. Nothing includes this file. */

#if defined(ORDERED) && !defined(STRICT)
static inline u32 l2(u64 a) { u16 v; COPY(&v, P(a), 2); return ORDERED(16, v); }
#else
static inline u32 l2(u64 a) { const u8 *p = P(a); return (u32)p[0] | (u32)p[1] << 8; }
#endif

#if defined(ORDERED) && !defined(STRICT)
static inline u32 l4(u64 a) { u32 v; COPY(&v, P(a), 4); return ORDERED(32, v); }
#else
static inline u32 l4(u64 a)
{
    const u8 *p = P(a);
    return (u32)p[0] | (u32)p[1] << 8 | (u32)p[2] << 16 | (u32)p[3] << 24;
}
#endif

#if defined(ORDERED) && !defined(STRICT)
static inline u64 l8(u64 a) { u64 v; COPY(&v, P(a), 8); return ORDERED(64, v); }
#else
static inline u64 l8(u64 a)
{
    const u8 *p = P(a);
    return (u64)p[0] | (u64)p[1] << 8 | (u64)p[2] << 16 | (u64)p[3] << 24 | (u64)p[4] << 32 | (u64)p[5] << 40 |
           (u64)p[6] << 48 | (u64)p[7] << 56;
}
#endif

#if defined(ORDERED) && !defined(STRICT)
static inline void s2(u64 a, u32 v) { const u16 low = ORDERED(16, (u16)v); COPY(P(a), &low, 2); }
#else
static inline void s2(u64 a, u32 v) { u8 *p = P(a); p[0] = (u8)v; p[1] = (u8)(v >> 8); }
#endif

#if defined(ORDERED) && !defined(STRICT)
static inline void s4(u64 a, u32 v) { v = ORDERED(32, v); COPY(P(a), &v, 4); }
#else
static inline void s4(u64 a, u32 v)
{
    u8 *p = P(a);
    p[0] = (u8)v; p[1] = (u8)(v >> 8); p[2] = (u8)(v >> 16); p[3] = (u8)(v >> 24);
}
#endif

#if defined(ORDERED) && !defined(STRICT)
static inline void s8(u64 a, u64 v) { v = ORDERED(64, v); COPY(P(a), &v, 8); }
#else
static inline void s8(u64 a, u64 v)
{
    u8 *p = P(a);
    p[0] = (u8)v; p[1] = (u8)(v >> 8); p[2] = (u8)(v >> 16); p[3] = (u8)(v >> 24);
    p[4] = (u8)(v >> 32); p[5] = (u8)(v >> 40); p[6] = (u8)(v >> 48); p[7] = (u8)(v >> 56);
}
#endif

#ifdef ORDERED
static inline u32 l2_2(u64 a) { u16 v; COPY(&v, AT(a, 2), 2); return ORDERED(16, v); }
#else
static inline u32 l2_2(u64 a) { return l2(a); }
#endif

#ifdef STRICT
static inline u32 l4_2(u64 a) { return l2_2(a) | l2_2(a + 2) << 16; }
#else
static inline u32 l4_2(u64 a) { return l4(a); }
#endif

#ifdef ORDERED
static inline u32 l4_4(u64 a) { u32 v; COPY(&v, AT(a, 4), 4); return ORDERED(32, v); }
#else
static inline u32 l4_4(u64 a) { return l4(a); }
#endif

#ifdef STRICT
static inline u64 l8_2(u64 a) { return (u64)l4_2(a) | (u64)l4_2(a + 4) << 32; }
#else
static inline u64 l8_2(u64 a) { return l8(a); }
#endif

#ifdef STRICT
static inline u64 l8_4(u64 a) { return (u64)l4_4(a) | (u64)l4_4(a + 4) << 32; }
#else
static inline u64 l8_4(u64 a) { return l8(a); }
#endif

#ifdef ORDERED
static inline u64 l8_8(u64 a) { u64 v; COPY(&v, AT(a, 8), 8); return ORDERED(64, v); }
#else
static inline u64 l8_8(u64 a) { return l8(a); }
#endif

#ifdef ORDERED
static inline void s2_2(u64 a, u32 v) { const u16 low = ORDERED(16, (u16)v); COPY(AT(a, 2), &low, 2); }
#else
static inline void s2_2(u64 a, u32 v) { s2(a, v); }
#endif

#ifdef STRICT
static inline void s4_2(u64 a, u32 v) { s2_2(a, v); s2_2(a + 2, v >> 16); }
#else
static inline void s4_2(u64 a, u32 v) { s4(a, v); }
#endif

#ifdef ORDERED
static inline void s4_4(u64 a, u32 v) { v = ORDERED(32, v); COPY(AT(a, 4), &v, 4); }
#else
static inline void s4_4(u64 a, u32 v) { s4(a, v); }
#endif

#ifdef STRICT
static inline void s8_2(u64 a, u64 v) { s4_2(a, (u32)v); s4_2(a + 4, (u32)(v >> 32)); }
#else
static inline void s8_2(u64 a, u64 v) { s8(a, v); }
#endif

#ifdef STRICT
static inline void s8_4(u64 a, u64 v) { s4_4(a, (u32)v); s4_4(a + 4, (u32)(v >> 32)); }
#else
static inline void s8_4(u64 a, u64 v) { s8(a, v); }
#endif

#ifdef ORDERED
static inline void s8_8(u64 a, u64 v) { v = ORDERED(64, v); COPY(AT(a, 8), &v, 8); }
#else
static inline void s8_8(u64 a, u64 v) { s8(a, v); }
#endif

static inline u32 l1(u64 a) { return *P(a); }

static inline void s1(u64 a, u32 v) { *P(a) = (u8)v; }

static inline void copy(u64 to, u64 from, u64 count) { MOVE(P(to), P(from), (size_t)count); }

static inline void fill(u64 to, u32 v, u64 count) { FILL(P(to), (int)(v & 255), (size_t)count); }

static inline u32 rotl32(u32 v, u32 n) { return v << n | v >> ((32 - n) & 31); }

static inline u32 rotr32(u32 v, u32 n) { return v >> n | v << ((32 - n) & 31); }

static inline u64 rotl64(u64 v, u64 n) { return v << n | v >> ((64 - n) & 63); }

static inline u64 rotr64(u64 v, u64 n) { return v >> n | v << ((64 - n) & 63); }

#ifdef __POPCNT__
static inline u64 pop64(u64 v) { return (u64)__builtin_popcountll(v); }
#else
static inline u64 pop64(u64 v)
{
    v -= v >> 1 & 0x5555555555555555ull;
    v = (v & 0x3333333333333333ull) + (v >> 2 & 0x3333333333333333ull);
    return ((v + (v >> 4)) & 0x0F0F0F0F0F0F0F0Full) * 0x0101010101010101ull >> 56;
}
#endif

static inline u32 pop32(u32 v) { return (u32)pop64(v); }

#ifdef LIKE_GCC
static inline u64 ctz64(u64 v) { return v == 0 ? 64 : (u64)(u32)__builtin_ctzll(v); }
#else
static inline u64 ctz64(u64 v) { return pop64(~v & (v - 1)); }
#endif

static inline u32 ctz32(u32 v) { return v == 0 ? 32 : (u32)ctz64(v); }

#ifdef LIKE_GCC
static inline u64 clz64(u64 v) { return v == 0 ? 64 : (u64)(u32)__builtin_clzll(v); }
#else
static inline u64 clz64(u64 v)
{
    u64 count = 64;
    for (; v != 0; v >>= 1)
        count--;
    return count;
}
#endif

static inline u32 clz32(u32 v) { return (u32)clz64(v) - 32; }

static inline u32 div32(u32 v, u32 by) { if (by == 0) TRAP(); return v / by; }

static inline u32 rem32(u32 v, u32 by) { if (by == 0) TRAP(); return v % by; }

static inline u64 div64(u64 v, u64 by) { if (by == 0) TRAP(); return v / by; }

static inline u64 rem64(u64 v, u64 by) { if (by == 0) TRAP(); return v % by; }

static inline u32 sdiv32(u32 v, u32 by)
{
    if (by == 0 || (v == 0x80000000u && by == 0xFFFFFFFFu)) TRAP();
    return (u32)((i32)v / (i32)by);
}

static inline u32 srem32(u32 v, u32 by)
{
    if (by == 0) TRAP();
    return by == 0xFFFFFFFFu ? 0 : (u32)((i32)v % (i32)by);
}

static inline u64 sdiv64(u64 v, u64 by)
{
    if (by == 0 || (v == 0x8000000000000000ull && by == 0xFFFFFFFFFFFFFFFFull)) TRAP();
    return (u64)((i64)v / (i64)by);
}

static inline u64 srem64(u64 v, u64 by)
{
    if (by == 0) TRAP();
    return by == 0xFFFFFFFFFFFFFFFFull ? 0 : (u64)((i64)v % (i64)by);
}
