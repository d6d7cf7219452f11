# A butterfly of the last layer of Kyber's number-theoretic transform (pq-crystals/kyber, ref/ntt.c):
#
#     t = fqmul(zeta, r[j + len]);                the product, and its Montgomery reduction modulo 3329
#     r[j + len] = r[j] - t;
#     r[j] = r[j] + t;
#
# Each layer adds at most 3328 to a coefficient, so before the last of seven they lie within 7 * 3329 = 23303; a zeta lies
# from -1664 to 1664.
# States: the sum f and the difference g of 16 bits do not overflow, are within 26631, and have
# 65536 f = 65536 a + b zeta and 65536 g = 65536 a - b zeta modulo 3329.
# Known: true. The ranges are shown. The congruences are shown with the low half `lo` of the reduction written out, and `lo` is
# shown to be 0; the last two goals say them without it, and wait for the search of combinations.
in s16 a
in s16 b
in s16 zeta
pre rng -23303@s16 <= a && a <= 23303@s16
pre rng -23303@s16 <= b && b <= 23303@s16
pre rng -1664@s16 <= zeta && zeta <= 1664@s16

# fqmul
mulj s16 x b zeta
cast s16 x0 x
mull s16 high low x0 -3327@s16
cast s16 m low
mulj s16 p m 3329@s16
sub s32 d x p
cut rng -147857535@s32 <= d && d <= 147860864@s32 && -23303@s16 <= a && a <= 23303@s16
split s32 y lo d 16
assert alg lo = 0 mod 65536
assert rng lo = 0@u32
vpc s16 t y
assert rng -3328@s16 <= t && t <= 3328@s16
assert alg 65536*t + lo = b*zeta mod 3329

# the butterfly
sub s16 g a t
add s16 f a t

post rng -26631@s16 <= f && f <= 26631@s16
post rng -26631@s16 <= g && g <= 26631@s16
post alg f = a + t
post alg g = a - t
post alg 65536*f + lo = 65536*a + b*zeta mod 3329
post alg 65536*g - lo = 65536*a - b*zeta mod 3329
post alg 65536*f = 65536*a + b*zeta mod 3329
post alg 65536*g = 65536*a - b*zeta mod 3329
end
