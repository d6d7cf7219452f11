# Montgomery reduction modulo 3329 with the radix 2^16, as montgomery_reduce of the Kyber reference implementation
# (pq-crystals/kyber, ref/reduce.c; the signed form is that of Seiler, Faster AVX2 optimized NTT multiplication, 2018):
#
#     t = (int16_t)a * QINV;                      QINV = -3327 = 3329^-1 modulo 2^16
#     t = (a - (int32_t)t * KYBER_Q) >> 16;
#
# States: for -3329 * 2^15 <= a < 3329 * 2^15 the result r has 65536 r = a modulo 3329, and -3329 < r < 3329.
# Known: true. The low half of the difference is 0, which is shown in two steps: modulo 65536 by substitution, and then as a
# word. With that half written out the congruence is a substitution too. The last goal says it without the half; it has to
# combine two hypotheses, and that search does not exist yet.
in s32 a
pre rng -109084672@s32 <= a && a <= 109084671@s32

cast s16 a0 a                             # (int16_t)a
mull s16 high low a0 -3327@s16
cast s16 t low                            # the product keeps its low half
mulj s16 p t 3329@s16
sub s32 d a p
cut rng -218166015@s32 <= d && d <= 218169343@s32

split s32 y lo d 16
assert alg lo = 0 mod 65536               # d is 11075584 a there, and 11075584 = 169 * 65536
assert rng lo = 0@u32
vpc s16 r y

post rng -3329@s16 < r && r < 3329@s16
post alg 65536*r + lo = a mod 3329
post alg 65536*r = a mod 3329
end
