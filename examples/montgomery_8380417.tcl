# Montgomery reduction modulo 8380417 with the radix 2^32, as montgomery_reduce of the Dilithium reference implementation
# (pq-crystals/dilithium, ref/reduce.c):
#
#     t = (int64_t)(int32_t)a * QINV;             QINV = 58728449 = 8380417^-1 modulo 2^32
#     t = (a - (int64_t)t * Q) >> 32;
#
# States: for -8380417 * 2^31 <= a < 8380417 * 2^31 the result r has 2^32 r = a modulo 8380417, and -8380417 < r < 8380417.
# Known: true; shown as for 3329, at twice the width. The last goal waits for the search of combinations.
in s64 a
pre rng -17996808470921216@s64 <= a && a <= 17996808470921215@s64

cast s32 a0 a                             # (int32_t)a
mull s32 high low a0 58728449@s32
cast s32 t low                            # the product keeps its low half
mulj s32 p t 8380417@s32
sub s64 d a p
cut rng -35993616933462015@s64 <= d && d <= 35993616941842431@s64

split s64 y lo d 32
assert alg lo = 0 mod 2**32
assert rng lo = 0@u64
vpc s32 r y

post rng -8380417@s32 < r && r < 8380417@s32
post alg 2**32*r + lo = a mod 8380417
post alg 2**32*r = a mod 8380417
end
