# The carry chain of Poly1305 in five limbs of 26 bits, as in poly1305-donna-32 (Moon) behind its products (Bernstein, The
# Poly1305-AES message-authentication code, 2005): d0 to d4 are sums of products of limbs, and the h are the limbs of the
# accumulator modulo 2^130 - 5.
#
#                  c = (uint32_t)(d0 >> 26); h0 = (uint32_t)d0 & 0x3ffffff;
#     d1 += c;     c = (uint32_t)(d1 >> 26); h1 = (uint32_t)d1 & 0x3ffffff;
#     ...
#     h0 += c * 5; c = h0 >> 26;             h0 = h0 & 0x3ffffff;
#     h1 += c;
#
# With limbs h up to 2^27 and r up to 2^26 the sums d are at most 21, 17, 13, 9 and 5 times 2^53.
# States: no carry leaves its 32 bits, nothing overflows, all limbs but the second are below 2^26, the second is below
# 2^26 + 64, and their value is that of the sums less c4 (2^130 - 5), where c4 is the carry of the last.
# Known: true. The last line says it modulo 2^130 - 5, whose truth this verifier does not compute, since it is above 2^126. Over
# the integers the coefficients are too great too; the lines before say it modulo 2^126 and 2^107 - 1, whose product is above
# both sides.
in u64 d0
in u64 d1
in u64 d2
in u64 d3
in u64 d4
pre rng d0 <= 189151184349560832@u64
pre rng d1 <= 153122387330596864@u64
pre rng d2 <= 117093590311632896@u64
pre rng d3 <= 81064793292668928@u64
pre rng d4 <= 45035996273704960@u64

split u64 q0 m0 d0 26
vpc u32 c0 q0
vpc u32 x0 m0

cast u64 w1 c0
add u64 e1 d1 w1
split u64 q1 m1 e1 26
vpc u32 c1 q1
vpc u32 x1 m1

cast u64 w2 c1
add u64 e2 d2 w2
split u64 q2 m2 e2 26
vpc u32 c2 q2
vpc u32 h2 m2

cast u64 w3 c2
add u64 e3 d3 w3
split u64 q3 m3 e3 26
vpc u32 c3 q3
vpc u32 h3 m3

cast u64 w4 c3
add u64 e4 d4 w4
split u64 q4 m4 e4 26
vpc u32 c4 q4
vpc u32 h4 m4

mul u32 f c4 5@u32
add u32 y0 x0 f
split u32 c5 h0 y0 26
add u32 h1 x1 c5

post rng h0 < 67108864@u32 && h1 < 67108928@u32
post rng h2 < 67108864@u32 && h3 < 67108864@u32 && h4 < 67108864@u32
post alg h0 + 2**26*h1 + 2**52*h2 + 2**78*h3 + 2**104*h4 + 2**130*c4 - 5*c4 = d0 + 2**26*d1 + 2**52*d2 + 2**78*d3 + 2**104*d4 mod 2**126
post alg h0 + 2**26*h1 + 2**52*h2 + 2**78*h3 + 2**104*h4 + 2**130*c4 - 5*c4 = d0 + 2**26*d1 + 2**52*d2 + 2**78*d3 + 2**104*d4 mod 2**107 - 1
post alg h0 + 2**26*h1 + 2**52*h2 + 2**78*h3 + 2**104*h4 = d0 + 2**26*d1 + 2**52*d2 + 2**78*d3 + 2**104*d4 mod 2**130 - 5
end
