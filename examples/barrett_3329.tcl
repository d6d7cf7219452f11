# Barrett reduction modulo 3329, as barrett_reduce of the Kyber reference implementation (pq-crystals/kyber, ref/reduce.c):
#
#     const int16_t v = ((1 << 26) + KYBER_Q / 2) / KYBER_Q;     20159
#     t = ((int32_t)v * a + (1 << 25)) >> 26;
#     t *= KYBER_Q;
#     return a - t;
#
# States: the result is the remainder of a modulo 3329 that lies from -1664 to 1664, for each of the 65,536 values of a.
# Known: the product t * 3329 leaves 16 bits at the upper end, 10 * 3329 = 33290, and the difference wraps back. So product
# and difference are written with their low halves, which claim nothing, and not as `mul` and `sub`, whose exactness fails.
# All goals rest on the 16 bits of a: each is settled by a walk through all of them, or by the intervals.
in s16 a

mulj s16 va a 20159@s16
add s32 rounded va 33554432@s32           # 2^25: to the nearest
split s32 high low rounded 26
vpc s16 t high

mull s16 carry product t 3329@s16         # t *= KYBER_Q keeps the low half
cast s16 u product
cast s32 wide_a a
cast s32 wide_u u
sub s32 difference wide_a wide_u
cast s16 r difference                     # the result has 16 bits

assert rng -10@s16 <= t && t <= 10@s16
post alg r = a mod 3329
post rng -1664@s16 <= r && r <= 1664@s16
end
