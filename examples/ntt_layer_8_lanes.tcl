# Eight lanes of one layer of Kyber's number-theoretic transform: the butterflies of the layer with distance 8 on the first 16
# coefficients, a register of eight 16-bit lanes against the next, with the zeta 573 = 2^16 * 17^4 modulo 3329. The reduction is
# that of Seiler, Faster AVX2 optimized NTT multiplication for Ring-LWE lattice cryptography, 2018: with -5827 = 573 * 3329^-1
# modulo 2^16,
#
#     h = mulhi(b, 573);  k = mullo(b, -5827);  m = mulhi(k, 3329);  t = h - m;  f = a + t;  g = a - t;
#
# States: with coefficients within 5 * 3329 = 16645, no lane overflows, the results are within 18455, and in each lane
# 65536 t = 573 b modulo 3329, f = a + t and g = a - t.
# Known: true, and all of it is shown: the congruences by a walk through the 16 bits of b, since the zeta is a constant, the
# ranges by the intervals, the equations by substitution.
in s16 a0
in s16 b0
in s16 a1
in s16 b1
in s16 a2
in s16 b2
in s16 a3
in s16 b3
in s16 a4
in s16 b4
in s16 a5
in s16 b5
in s16 a6
in s16 b6
in s16 a7
in s16 b7
pre rng -16645@s16 <= a0 && a0 <= 16645@s16
pre rng -16645@s16 <= b0 && b0 <= 16645@s16
pre rng -16645@s16 <= a1 && a1 <= 16645@s16
pre rng -16645@s16 <= b1 && b1 <= 16645@s16
pre rng -16645@s16 <= a2 && a2 <= 16645@s16
pre rng -16645@s16 <= b2 && b2 <= 16645@s16
pre rng -16645@s16 <= a3 && a3 <= 16645@s16
pre rng -16645@s16 <= b3 && b3 <= 16645@s16
pre rng -16645@s16 <= a4 && a4 <= 16645@s16
pre rng -16645@s16 <= b4 && b4 <= 16645@s16
pre rng -16645@s16 <= a5 && a5 <= 16645@s16
pre rng -16645@s16 <= b5 && b5 <= 16645@s16
pre rng -16645@s16 <= a6 && a6 <= 16645@s16
pre rng -16645@s16 <= b6 && b6 <= 16645@s16
pre rng -16645@s16 <= a7 && a7 <= 16645@s16
pre rng -16645@s16 <= b7 && b7 <= 16645@s16

# lane 0
mull s16 h0 l0 b0 573@s16
mull s16 x0 y0 b0 -5827@s16
cast s16 k0 y0
mull s16 m0 n0 k0 3329@s16
sub s16 t0 h0 m0
assert alg 65536*t0 = 573*b0 mod 3329
add s16 f0 a0 t0
sub s16 g0 a0 t0

# lane 1
mull s16 h1 l1 b1 573@s16
mull s16 x1 y1 b1 -5827@s16
cast s16 k1 y1
mull s16 m1 n1 k1 3329@s16
sub s16 t1 h1 m1
assert alg 65536*t1 = 573*b1 mod 3329
add s16 f1 a1 t1
sub s16 g1 a1 t1

# lane 2
mull s16 h2 l2 b2 573@s16
mull s16 x2 y2 b2 -5827@s16
cast s16 k2 y2
mull s16 m2 n2 k2 3329@s16
sub s16 t2 h2 m2
assert alg 65536*t2 = 573*b2 mod 3329
add s16 f2 a2 t2
sub s16 g2 a2 t2

# lane 3
mull s16 h3 l3 b3 573@s16
mull s16 x3 y3 b3 -5827@s16
cast s16 k3 y3
mull s16 m3 n3 k3 3329@s16
sub s16 t3 h3 m3
assert alg 65536*t3 = 573*b3 mod 3329
add s16 f3 a3 t3
sub s16 g3 a3 t3

# lane 4
mull s16 h4 l4 b4 573@s16
mull s16 x4 y4 b4 -5827@s16
cast s16 k4 y4
mull s16 m4 n4 k4 3329@s16
sub s16 t4 h4 m4
assert alg 65536*t4 = 573*b4 mod 3329
add s16 f4 a4 t4
sub s16 g4 a4 t4

# lane 5
mull s16 h5 l5 b5 573@s16
mull s16 x5 y5 b5 -5827@s16
cast s16 k5 y5
mull s16 m5 n5 k5 3329@s16
sub s16 t5 h5 m5
assert alg 65536*t5 = 573*b5 mod 3329
add s16 f5 a5 t5
sub s16 g5 a5 t5

# lane 6
mull s16 h6 l6 b6 573@s16
mull s16 x6 y6 b6 -5827@s16
cast s16 k6 y6
mull s16 m6 n6 k6 3329@s16
sub s16 t6 h6 m6
assert alg 65536*t6 = 573*b6 mod 3329
add s16 f6 a6 t6
sub s16 g6 a6 t6

# lane 7
mull s16 h7 l7 b7 573@s16
mull s16 x7 y7 b7 -5827@s16
cast s16 k7 y7
mull s16 m7 n7 k7 3329@s16
sub s16 t7 h7 m7
assert alg 65536*t7 = 573*b7 mod 3329
add s16 f7 a7 t7
sub s16 g7 a7 t7

post rng -18455@s16 <= f0 && f0 <= 18455@s16 && -18455@s16 <= g0 && g0 <= 18455@s16
post rng -18455@s16 <= f1 && f1 <= 18455@s16 && -18455@s16 <= g1 && g1 <= 18455@s16
post rng -18455@s16 <= f2 && f2 <= 18455@s16 && -18455@s16 <= g2 && g2 <= 18455@s16
post rng -18455@s16 <= f3 && f3 <= 18455@s16 && -18455@s16 <= g3 && g3 <= 18455@s16
post rng -18455@s16 <= f4 && f4 <= 18455@s16 && -18455@s16 <= g4 && g4 <= 18455@s16
post rng -18455@s16 <= f5 && f5 <= 18455@s16 && -18455@s16 <= g5 && g5 <= 18455@s16
post rng -18455@s16 <= f6 && f6 <= 18455@s16 && -18455@s16 <= g6 && g6 <= 18455@s16
post rng -18455@s16 <= f7 && f7 <= 18455@s16 && -18455@s16 <= g7 && g7 <= 18455@s16
post alg f0 = a0 + t0
post alg g0 = a0 - t0
post alg f1 = a1 + t1
post alg g1 = a1 - t1
post alg f2 = a2 + t2
post alg g2 = a2 - t2
post alg f3 = a3 + t3
post alg g3 = a3 - t3
post alg f4 = a4 + t4
post alg g4 = a4 - t4
post alg f5 = a5 + t5
post alg g5 = a5 - t5
post alg f6 = a6 + t6
post alg g6 = a6 - t6
post alg f7 = a7 + t7
post alg g7 = a7 - t7
end
