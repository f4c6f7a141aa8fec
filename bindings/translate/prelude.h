/* Made by bindings/translate from a module of LLVM; what is behind this part is not to be read or changed by hand. This part has what the module's
 * instructions need: types, and functions for memory, numbers and vectors. It compiles in three ways. By gcc and clang it takes their extensions.
 * With ND_ISO_C, and by other compilers, it is C11 without any. And it is C++ with the extensions of g++. ND_NO_INT128 and ND_NO_VECTORS leave out
 * one extension each, and ND_CHECKED lets the program end where it is proved not to go. */
#include <stddef.h>
#include <stdint.h>
#include <stdlib.h>
#include <string.h>

/* C++ has other words for these. */
#if defined(__cplusplus)
#define _Alignas alignas
#define _Static_assert static_assert
#endif
typedef uint8_t u8;
typedef uint16_t u16;
typedef uint32_t u32;
typedef uint64_t u64;
/* A pointer of the module. It has 64 bits on every machine, since LLVM moves data of 8 bytes as a pointer where part of it may be one: Q_OF makes
 * one of an address, AT an address of one, at the access. ADD stays in the object that its base points to, as `inbounds` promises and C requires. */
#if UINTPTR_MAX == UINT64_MAX
typedef uint8_t *Q;
#define Q_OF(p) ((Q)(p))
#define AT(q) (q)
#define ADD(q, n) ((q) + (n))
#else
typedef uint64_t Q;
#define Q_OF(p) ((Q)(uintptr_t)(p))
#define AT(q) ((u8 *)(uintptr_t)(q))
#define ADD(q, n) ((Q)(uintptr_t)((uintptr_t)(q) + (uintptr_t)(n)))
#endif
#define Q_NULL ((Q)0)

#if defined(__GNUC__)
#pragma GCC diagnostic ignored "-Wunused-function"
#pragma GCC diagnostic ignored "-Warray-bounds" /* of code that isn't reached with the constant that gcc follows there */
#pragma GCC diagnostic ignored "-Wunused-parameter"
#ifndef __clang__
#pragma GCC diagnostic ignored "-Wpsabi"
#endif
#endif
#if defined(__GNUC__) && !defined(ND_ISO_C)
#define GNU 1
#define TRAP() __builtin_trap()
#else
#define GNU 0
#define TRAP() abort()
#endif
/* `unreachable`: what cannot be reached. With ND_CHECKED the program ends there. */
#if GNU && !defined(ND_CHECKED)
#define UNREACHABLE() __builtin_unreachable()
#else
#define UNREACHABLE() TRAP()
#endif
/* getelementptr without `inbounds`: LLVM lets the address be anywhere until it is used, so C computes it as a number. */
#define FAR(q, n) ((Q)(uintptr_t)((uintptr_t)(q) + (uintptr_t)(n)))

/* ---- memory: little-endian on every machine, as the module's layout says, since the module reads numbers as bytes and bytes as numbers ---- */
#if defined(__BYTE_ORDER__) && __BYTE_ORDER__ == __ORDER_BIG_ENDIAN__
#define BIG 1
#else
#define BIG 0
#endif
static inline u16 swap16(u16 a) { return (u16)(a << 8 | a >> 8); }
static inline u32 swap32(u32 a) { return a << 24 | (a & 0xff00) << 8 | (a >> 8 & 0xff00) | a >> 24; }
static inline u64 swap64(u64 a) { return (u64)swap32((u32)a) << 32 | swap32((u32)(a >> 32)); }
#define bswap16 swap16
#if GNU
#define bswap32 __builtin_bswap32
#define bswap64 __builtin_bswap64
#else
#define bswap32 swap32
#define bswap64 swap64
#endif
#define bswap8(a) (a)
#if BIG
#define OWN(bits, a) bswap##bits(a)
#else
#define OWN(bits, a) (a)
#endif
/* ldB_A and stB_A: numbers of B bits at an address that is a multiple of A, as LLVM promises. LLVM's memory has no types, and C's has, but for
 * may_alias and memcpy. */
#if GNU
/* A caller's structure is aligned as the machine's C has it, which may be by less than the module's layout says: i386 aligns 64 bits by 4. */
struct with_16 { u8 first; u16 second; };
struct with_32 { u8 first; u32 second; };
struct with_64 { u8 first; u64 second; };
#define CAPPED_8 offsetof(struct with_64, second)
#define CAPPED_4 offsetof(struct with_32, second)
#define CAPPED_2 offsetof(struct with_16, second)
#define CAPPED_1 1
#define MEMORY(bits, by) \
    typedef u##bits __attribute__((may_alias, aligned(CAPPED_##by))) at##bits##_##by; \
    static inline u##bits ld##bits##_##by(Q p) { return OWN(bits, *(const at##bits##_##by *)AT(p)); } \
    static inline void st##bits##_##by(Q p, u##bits v) { *(at##bits##_##by *)AT(p) = OWN(bits, v); }
#else
#define MEMORY(bits, by) \
    static inline u##bits ld##bits##_##by(Q p) { u##bits v; memcpy(&v, AT(p), sizeof v); return OWN(bits, v); } \
    static inline void st##bits##_##by(Q p, u##bits v) { v = OWN(bits, v); memcpy(AT(p), &v, sizeof v); }
#endif
MEMORY(8, 1)
MEMORY(16, 1) MEMORY(16, 2)
MEMORY(32, 1) MEMORY(32, 2) MEMORY(32, 4)
MEMORY(64, 1) MEMORY(64, 2) MEMORY(64, 4) MEMORY(64, 8)
/* ldp_A and stp_A: pointers, of 8 bytes on every machine. Where C's have 8 bytes too, they are moved as pointers, which a compiler may follow. */
#if GNU && !BIG && UINTPTR_MAX == UINT64_MAX
#define POINTER(by) \
    typedef Q __attribute__((may_alias, aligned(by))) atp_##by; \
    static inline Q ldp_##by(Q p) { return *(const atp_##by *)p; } \
    static inline void stp_##by(Q p, Q v) { *(atp_##by *)p = v; }
#else
#define POINTER(by) \
    static inline Q ldp_##by(Q p) { return (Q)ld64_##by(p); } \
    static inline void stp_##by(Q p, Q v) { st64_##by(p, (u64)v); }
#endif
POINTER(1) POINTER(2) POINTER(4) POINTER(8)
/* Numbers of 3, 5, 6 and 7 bytes. */
static inline u64 ldn(Q q, int n) { const u8 *p = AT(q); u64 v = 0; while (n-- > 0) v = v << 8 | p[n]; return v; }
static inline void stn(Q q, u64 v, int n) { u8 *p = AT(q); for (; n-- > 0; v >>= 8) *p++ = (u8)v; }
#define MEMCPY(to, from, n) memcpy(AT(to), AT(from), n)
#define MEMMOVE(to, from, n) memmove(AT(to), AT(from), n)
#define MEMSET(to, byte, n) memset(AT(to), byte, n)
/* LLVM allows any pointers where no bytes are moved. C does not, and its compilers conclude that they are not null. */
static inline void memcpy_n(Q to, Q from, u64 n) { if (n != 0) memcpy(AT(to), AT(from), (size_t)n); }
static inline void memmove_n(Q to, Q from, u64 n) { if (n != 0) memmove(AT(to), AT(from), (size_t)n); }
static inline void memset_n(Q to, u8 byte, u64 n) { if (n != 0) memset(AT(to), byte, (size_t)n); }

/* ---- numbers: intrinsics of LLVM by their names. A shift by all bits, which C leaves undefined, is never made. ---- */
#define NUMBERS(bits) \
    static inline u##bits umax##bits(u##bits a, u##bits b) { return a > b ? a : b; } \
    static inline u##bits umin##bits(u##bits a, u##bits b) { return a < b ? a : b; } \
    static inline u##bits smax##bits(u##bits a, u##bits b) { return (int##bits##_t)a > (int##bits##_t)b ? a : b; } \
    static inline u##bits smin##bits(u##bits a, u##bits b) { return (int##bits##_t)a < (int##bits##_t)b ? a : b; } \
    static inline u##bits usub_sat##bits(u##bits a, u##bits b) { return a > b ? (u##bits)(a - b) : (u##bits)0; } \
    static inline u##bits uadd_sat##bits(u##bits a, u##bits b) { u##bits s = (u##bits)(a + b); return s < a ? (u##bits)-1 : s; } \
    static inline u##bits abs##bits(u##bits a) { return a >> (bits - 1) ? (u##bits)(0 - a) : a; } \
    static inline u##bits fshl##bits(u##bits a, u##bits b, u##bits n) { n &= bits - 1; return n ? (u##bits)(a << n | b >> (bits - n)) : a; } \
    static inline u##bits fshr##bits(u##bits a, u##bits b, u##bits n) { n &= bits - 1; return n ? (u##bits)(a << (bits - n) | b >> n) : b; } \
    static inline u##bits ctpop##bits(u##bits a) { u##bits n = 0; for (; a; n++) a = (u##bits)(a & (a - 1)); return n; } \
    static inline u32 ucmp##bits(u##bits a, u##bits b) { return (u32)(a > b) - (u32)(a < b); } \
    static inline u32 scmp##bits(u##bits a, u##bits b) { \
        return (u32)((int##bits##_t)a > (int##bits##_t)b) - (u32)((int##bits##_t)a < (int##bits##_t)b); \
    }
NUMBERS(8) NUMBERS(16) NUMBERS(32) NUMBERS(64)
#if GNU
static inline u64 cttz64(u64 a) { return a ? (u64)__builtin_ctzll(a) : 64; }
static inline u64 ctlz64(u64 a) { return a ? (u64)__builtin_clzll(a) : 64; }
static inline u32 cttz32(u32 a) { return a ? (u32)__builtin_ctz(a) : 32; }
static inline u32 ctlz32(u32 a) { return a ? (u32)__builtin_clz(a) : 32; }
/* `freeze`: what is read of memory that was never written may be another number at each use, for LLVM and for C. From here on it is one. */
#define FREEZE(bits) static inline u##bits u##bits##_frozen(u##bits a) { __asm__("" : "+r"(a)); return a; }
FREEZE(8) FREEZE(16) FREEZE(32)
#if UINTPTR_MAX > UINT32_MAX
FREEZE(64)
#else
static inline u64 u64_frozen(u64 a) { volatile u64 v = a; return v; }
#endif
#else
static inline u64 cttz64(u64 a) { u64 n = 0; if (a == 0) return 64; for (; !(a & 1); a >>= 1) n++; return n; }
static inline u64 ctlz64(u64 a) { u64 n = 64; for (; a; a >>= 1) n--; return n; }
static inline u32 cttz32(u32 a) { return a ? (u32)cttz64(a) : 32; }
static inline u32 ctlz32(u32 a) { return (u32)ctlz64(a) - 32; }
#define FREEZE(bits) static inline u##bits u##bits##_frozen(u##bits a) { volatile u##bits v = a; return v; }
FREEZE(8) FREEZE(16) FREEZE(32) FREEZE(64)
#endif
static inline u16 cttz16(u16 a) { return a ? (u16)cttz32(a) : 16; }
static inline u8 cttz8(u8 a) { return a ? (u8)cttz32(a) : 8; }
static inline u16 ctlz16(u16 a) { return (u16)(ctlz32(a) - 16); }
static inline u8 ctlz8(u8 a) { return (u8)(ctlz32(a) - 24); }

/* ---- numbers of 128 bits: the compiler's own, or two of 64. Shifts are by 127 at most. ---- */
#if defined(__SIZEOF_INT128__) && GNU && !defined(ND_NO_INT128)
__extension__ typedef unsigned __int128 u128;
__extension__ typedef __int128 i128;
static inline u128 u128_of(u64 h, u64 l) { return (u128)h << 64 | l; }
static inline u64 u128_low(u128 a) { return (u64)a; }
static inline u64 u128_high(u128 a) { return (u64)(a >> 64); }
static inline u128 u128_add(u128 a, u128 b) { return a + b; }
static inline u128 u128_sub(u128 a, u128 b) { return a - b; }
static inline u128 u128_mul(u128 a, u128 b) { return a * b; }
static inline u128 u128_and(u128 a, u128 b) { return a & b; }
static inline u128 u128_or(u128 a, u128 b) { return a | b; }
static inline u128 u128_xor(u128 a, u128 b) { return a ^ b; }
static inline u128 u128_shl(u128 a, unsigned n) { return a << n; }
static inline u128 u128_lshr(u128 a, unsigned n) { return a >> n; }
static inline u128 u128_ashr(u128 a, unsigned n) { return (u128)((i128)a >> n); }
static inline int u128_eq(u128 a, u128 b) { return a == b; }
static inline int u128_lt(u128 a, u128 b) { return a < b; }
static inline int u128_slt(u128 a, u128 b) { return (i128)a < (i128)b; }
#else
typedef struct { u64 l, h; } u128;
static inline u128 u128_of(u64 h, u64 l) { u128 r; r.l = l; r.h = h; return r; }
static inline u64 u128_low(u128 a) { return a.l; }
static inline u64 u128_high(u128 a) { return a.h; }
static inline u128 u128_add(u128 a, u128 b) { u64 l = a.l + b.l; return u128_of(a.h + b.h + (l < a.l), l); }
static inline u128 u128_sub(u128 a, u128 b) { return u128_of(a.h - b.h - (a.l < b.l), a.l - b.l); }
static inline u128 u128_and(u128 a, u128 b) { return u128_of(a.h & b.h, a.l & b.l); }
static inline u128 u128_or(u128 a, u128 b) { return u128_of(a.h | b.h, a.l | b.l); }
static inline u128 u128_xor(u128 a, u128 b) { return u128_of(a.h ^ b.h, a.l ^ b.l); }
static inline u128 u128_shl(u128 a, unsigned n) {
    return n == 0 ? a : n >= 64 ? u128_of(a.l << (n - 64), 0) : u128_of(a.h << n | a.l >> (64 - n), a.l << n);
}
static inline u128 u128_lshr(u128 a, unsigned n) {
    return n == 0 ? a : n >= 64 ? u128_of(0, a.h >> (n - 64)) : u128_of(a.h >> n, a.l >> n | a.h << (64 - n));
}
static inline u128 u128_ashr(u128 a, unsigned n) {
    u64 s = (u64)0 - (a.h >> 63);
    return n == 0 ? a : n == 64 ? u128_of(s, a.h)
        : n > 64 ? u128_of(s, a.h >> (n - 64) | s << (128 - n)) : u128_of(a.h >> n | s << (64 - n), a.l >> n | a.h << (64 - n));
}
static inline int u128_eq(u128 a, u128 b) { return a.l == b.l && a.h == b.h; }
static inline int u128_lt(u128 a, u128 b) { return a.h < b.h || (a.h == b.h && a.l < b.l); }
static inline int u128_slt(u128 a, u128 b) { return (int64_t)a.h < (int64_t)b.h || (a.h == b.h && a.l < b.l); }
static inline u128 u128_mul(u128 a, u128 b) {
    const u64 m = 0xffffffff, al = a.l & m, ah = a.l >> 32, bl = b.l & m, bh = b.l >> 32;
    const u64 ll = al * bl, lh = al * bh, hl = ah * bl, mid = (ll >> 32) + (lh & m) + (hl & m);
    return u128_of(ah * bh + (lh >> 32) + (hl >> 32) + (mid >> 32) + a.l * b.h + a.h * b.l, mid << 32 | (ll & m));
}
#endif
static inline u128 umax128(u128 a, u128 b) { return u128_lt(a, b) ? b : a; }
static inline u128 umin128(u128 a, u128 b) { return u128_lt(a, b) ? a : b; }
static inline u128 usub_sat128(u128 a, u128 b) { return u128_lt(a, b) ? u128_of(0, 0) : u128_sub(a, b); }
static inline u128 bswap128(u128 a) { return u128_of(bswap64(u128_low(a)), bswap64(u128_high(a))); }
static inline u32 ucmp128(u128 a, u128 b) { return (u32)u128_lt(b, a) - (u32)u128_lt(a, b); }
#define MEMORY_128(by) \
    static inline u128 ld128_##by(Q p) { return u128_of(ld64_##by(ADD(p, 8)), ld64_##by(p)); } \
    static inline void st128_##by(Q p, u128 v) { st64_##by(p, u128_low(v)); st64_##by(ADD(p, 8), u128_high(v)); }
MEMORY_128(1) MEMORY_128(2) MEMORY_128(4) MEMORY_128(8)

/* ---- numbers with a fraction: LLVM rounds each result on its own, and C may join a product and a sum, or compute with more bits ---- */
static inline double d_fence(double a) { volatile double v = a; return v; }
#define d_fadd(a, b) d_fence((a) + (b))
#define d_fsub(a, b) d_fence((a) - (b))
#define d_fmul(a, b) d_fence((a) * (b))
#define d_fdiv(a, b) d_fence((a) / (b))
static inline u64 bits_of_double(double d) { u64 v; memcpy(&v, &d, 8); return v; }
static inline double double_of_bits(u64 v) { double d; memcpy(&d, &v, 8); return d; }
static inline double ld_double(Q p) { return double_of_bits(ld64_1(p)); }
static inline void st_double(Q p, double v) { st64_1(p, bits_of_double(v)); }

/* ---- vectors of bytes; those of i1 have 0 or 255 in each. Bytes are shifted by 7 at most. ---- */
#if GNU && !defined(ND_NO_VECTORS)
typedef u8 v16 __attribute__((vector_size(16)));
typedef int8_t sv16 __attribute__((vector_size(16)));
static inline v16 v16_splat(u8 e) { return (v16){e, e, e, e, e, e, e, e, e, e, e, e, e, e, e, e}; }
#define v16_of(...) ((v16){__VA_ARGS__})
#define v16_get(v, k) ((v)[k])
static inline v16 v16_set(v16 v, int k, u8 e) { v[k] = e; return v; }
#define V16(op, e) static inline v16 v16_##op(v16 a, v16 b) { return (v16)(e); }
V16(add, a + b) V16(sub, a - b) V16(and, a & b) V16(or, a | b) V16(xor, a ^ b) V16(eq, a == b) V16(ne, a != b) V16(ult, a < b) V16(uge, a >= b)
V16(slt, (sv16)a < (sv16)b) V16(sge, (sv16)a >= (sv16)b) V16(shl, a << (b & 7)) V16(lshr, a >> (b & 7)) V16(ashr, (sv16)a >> (sv16)(b & 7))
static inline v16 v16_select(v16 c, v16 a, v16 b) { return (c & a) | (~c & b); }
#ifdef __clang__
#define V16_SHUFFLE(a, b, ...) __builtin_shufflevector(a, b, __VA_ARGS__)
#else
#define V16_SHUFFLE(a, b, ...) __builtin_shuffle(a, b, (v16){__VA_ARGS__})
#endif
#else
typedef struct { u8 at[16]; } v16;
static inline v16 v16_splat(u8 e) { v16 v; memset(v.at, e, 16); return v; }
static inline v16 v16_listed(const u8 *e) { v16 v; memcpy(v.at, e, 16); return v; }
#define v16_of(...) v16_listed((const u8[16]){__VA_ARGS__})
static inline u8 v16_get(v16 v, int k) { return v.at[k]; }
static inline v16 v16_set(v16 v, int k, u8 e) { v.at[k] = e; return v; }
#define V16(op, e) \
    static inline v16 v16_##op(v16 x, v16 y) { \
        for (int k = 0; k < 16; k++) { u8 a = x.at[k], b = y.at[k]; x.at[k] = (u8)(e); } \
        return x; \
    }
V16(add, a + b) V16(sub, a - b) V16(and, a & b) V16(or, a | b) V16(xor, a ^ b) V16(eq, 0 - (a == b)) V16(ne, 0 - (a != b)) V16(ult, 0 - (a < b))
V16(uge, 0 - (a >= b)) V16(slt, 0 - ((int8_t)a < (int8_t)b)) V16(sge, 0 - ((int8_t)a >= (int8_t)b)) V16(shl, a << (b & 7)) V16(lshr, a >> (b & 7))
V16(ashr, (int8_t)a >> (b & 7))
static inline v16 v16_select(v16 c, v16 a, v16 b) { for (int k = 0; k < 16; k++) a.at[k] = c.at[k] ? a.at[k] : b.at[k]; return a; }
static inline v16 v16_shuffle(v16 a, v16 b, const u8 *ks) {
    v16 r;
    for (int k = 0; k < 16; k++) r.at[k] = ks[k] < 16 ? a.at[ks[k]] : b.at[ks[k] - 16];
    return r;
}
#define V16_SHUFFLE(a, b, ...) v16_shuffle(a, b, (const u8[16]){__VA_ARGS__})
#endif
static inline v16 ld_v16(Q p) { v16 v; memcpy(&v, AT(p), 16); return v; }
static inline void st_v16(Q p, v16 v) { memcpy(AT(p), &v, 16); }
#if defined(__SSE2__) && GNU && !defined(ND_NO_VECTORS)
static inline u16 v16_mask(v16 v) { typedef char c16 __attribute__((vector_size(16))); return (u16)__builtin_ia32_pmovmskb128((c16)v); }
#else
static inline u16 v16_mask(v16 v) {
    u8 b[16];
    memcpy(b, &v, 16);
    const u64 ones = UINT64_C(0x0101010101010101), sum = UINT64_C(0x0102040810204080);
    return (u16)((ld64_1(Q_OF(b)) & ones) * sum >> 56 | ((ld64_1(Q_OF(b + 8)) & ones) * sum >> 56) << 8);
}
#endif
static inline u128 v16_u128(v16 v) { u8 b[16]; memcpy(b, &v, 16); return ld128_1(Q_OF(b)); }
static inline v16 u128_v16(u128 v) { u8 b[16]; st128_1(Q_OF(b), v); return ld_v16(Q_OF(b)); }
/* Those of 32 and 64 bytes are two halves: gcc makes code by single bytes of longer vectors where the machine has none. */
#define V_TWO(op, v, h) static inline v v##_##op(v x, v y) { v r; r.a = h##_##op(x.a, y.a); r.b = h##_##op(x.b, y.b); return r; }
#define V_TWICE(v, h, bytes, u, hu, half) \
    typedef struct { h a, b; } v; \
    static inline v v##_splat(u8 e) { v r; r.a = r.b = h##_splat(e); return r; } \
    static inline v v##_set(v x, int k, u8 e) { if (k < half) x.a = h##_set(x.a, k, e); else x.b = h##_set(x.b, k - half, e); return x; } \
    static inline v ld_##v(Q p) { v r; r.a = ld_##h(p); r.b = ld_##h(ADD(p, half)); return r; } \
    static inline void st_##v(Q p, v x) { st_##h(p, x.a); st_##h(ADD(p, half), x.b); } \
    static inline v v##_select(v c, v x, v y) { v r; r.a = h##_select(c.a, x.a, y.a); r.b = h##_select(c.b, x.b, y.b); return r; } \
    static inline u v##_mask(v x) { return (u)((u)h##_mask(x.b) << half | h##_mask(x.a)); } \
    V_TWO(add, v, h) V_TWO(sub, v, h) V_TWO(and, v, h) V_TWO(or, v, h) V_TWO(xor, v, h) V_TWO(eq, v, h) V_TWO(ne, v, h) V_TWO(ult, v, h) \
    V_TWO(uge, v, h) V_TWO(slt, v, h) V_TWO(sge, v, h) V_TWO(shl, v, h) V_TWO(lshr, v, h) V_TWO(ashr, v, h)
V_TWICE(v32, v16, 32, u32, u16, 16)
V_TWICE(v64, v32, 64, u64, u32, 32)
