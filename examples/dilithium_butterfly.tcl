# A butterfly of the last layer of Dilithium's number-theoretic transform (pq-crystals/dilithium, ref/ntt.c):
#
#     t = montgomery_reduce((int64_t)zeta * a[j + len]);
#     a[j + len] = a[j] - t;
#     a[j] = a[j] + t;
#
# Each layer adds less than 8380417 to a coefficient, so before the last of eight they lie within 8 * 8380417 = 67043336; a zeta
# lies within (8380417 - 1) / 2 = 4190208.
# States: sum f and difference g do not overflow, are within 75423752, and have 2^32 f = 2^32 a + b zeta and
# 2^32 g = 2^32 a - b zeta modulo 8380417.
# Known: true. The ranges are shown, and the congruences with the low half `lo` of the reduction written out, which is shown to
# be 0; the last two goals wait for the search of combinations.
in s32 a
in s32 b
in s32 zeta
pre rng -67043336@s32 <= a && a <= 67043336@s32
pre rng -67043336@s32 <= b && b <= 67043336@s32
pre rng -4190208@s32 <= zeta && zeta <= 4190208@s32

# the product and its reduction
mulj s32 x b zeta
cast s32 x0 x
mull s32 high low x0 58728449@s32
cast s32 m low
mulj s32 p m 8380417@s32
sub s64 d x p
cut rng -18277733985394687@s64 <= d && d <= 18277733993775104@s64 && -67043336@s32 <= a && a <= 67043336@s32
split s64 y lo d 32
assert alg lo = 0 mod 2**32
assert rng lo = 0@u64
vpc s32 t y
assert rng -8380416@s32 <= t && t <= 8380416@s32
assert alg 2**32*t + lo = b*zeta mod 8380417

# the butterfly
sub s32 g a t
add s32 f a t

post rng -75423752@s32 <= f && f <= 75423752@s32
post rng -75423752@s32 <= g && g <= 75423752@s32
post alg f = a + t
post alg g = a - t
post alg 2**32*f + lo = 2**32*a + b*zeta mod 8380417
post alg 2**32*g - lo = 2**32*a - b*zeta mod 8380417
post alg 2**32*f = 2**32*a + b*zeta mod 8380417
post alg 2**32*g = 2**32*a - b*zeta mod 8380417
end
