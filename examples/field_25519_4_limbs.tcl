# Addition modulo p = 2^255 - 19 in four limbs of 64 bits: a chain of carries, and a conditional subtraction of p without a
# branch: 19 is added to the sum s, and where the bit q at 2^255 is then set, s + 19 without that bit, which is s - p, is moved
# over s; as the freeze of ed25519 with four limbs does it (amd64-64-24k; Bernstein and others, 2011).
#
# States: for a and b below p no carry leaves the four limbs, and the result r is below p and is s + q (19 - 2^255) = s - q p.
# Known: true. The last line says r = a + b modulo p, whose truth this verifier does not compute, since p is above 2^126.
# Over the integers the coefficients of such an equation are too great too; the lines before say it modulo 2^126, 2^107 - 1 and
# 2^89 - 1, whose product is above both sides, so that together they are the equation over the integers. The cut says all of s
# that the rest needs: s <= 2 p - 2. The four lines before it lead to it limb by limb.
in u64 a0
in u64 a1
in u64 a2
in u64 a3
in u64 b0
in u64 b1
in u64 b2
in u64 b3
pre rng a3 <= 9223372036854775807@u64
pre rng a3 < 9223372036854775807@u64 || a2 < 18446744073709551615@u64 || a1 < 18446744073709551615@u64 || a0 < 18446744073709551597@u64
pre rng b3 <= 9223372036854775807@u64
pre rng b3 < 9223372036854775807@u64 || b2 < 18446744073709551615@u64 || b1 < 18446744073709551615@u64 || b0 < 18446744073709551597@u64

# s = a + b
adds u64 c0 sum0 a0 b0
adcs u64 c1 sum1 a1 b1 c0
adcs u64 c2 sum2 a2 b2 c1
adcs u64 c3 sum3 a3 b3 c2
assert alg sum0 + 2**64*sum1 + 2**128*sum2 + 2**192*sum3 + 2**256*c3 = a0 + 2**64*a1 + 2**128*a2 + 2**192*a3 + b0 + 2**64*b1 + 2**128*b2 + 2**192*b3 mod 2**126
assert alg sum0 + 2**64*sum1 + 2**128*sum2 + 2**192*sum3 + 2**256*c3 = a0 + 2**64*a1 + 2**128*a2 + 2**192*a3 + b0 + 2**64*b1 + 2**128*b2 + 2**192*b3 mod 2**107 - 1
assert alg sum0 + 2**64*sum1 + 2**128*sum2 + 2**192*sum3 + 2**256*c3 = a0 + 2**64*a1 + 2**128*a2 + 2**192*a3 + b0 + 2**64*b1 + 2**128*b2 + 2**192*b3 mod 2**89 - 1
assert rng c3 = 0@u1
assert rng sum3 < 18446744073709551615@u64 || a3 = 9223372036854775807@u64 && b3 = 9223372036854775807@u64 && c2 = 1@u1
assert rng sum2 < 18446744073709551615@u64 || c2 = 0@u1 || a2 = 18446744073709551615@u64 && b2 = 18446744073709551615@u64 && c1 = 1@u1
assert rng sum1 < 18446744073709551615@u64 || c1 = 0@u1 || a1 = 18446744073709551615@u64 && b1 = 18446744073709551615@u64 && c0 = 1@u1
assert rng sum0 <= 18446744073709551576@u64 || c0 = 0@u1 || a0 >= 18446744073709551597@u64 || b0 >= 18446744073709551597@u64
cut rng sum3 < 18446744073709551615@u64 || sum2 < 18446744073709551615@u64 || sum1 < 18446744073709551615@u64 || sum0 <= 18446744073709551576@u64

# s + 19, and its bit q
adds u64 d0 t0 sum0 19@u64
adcs u64 d1 t1 sum1 0@u64 d0
adcs u64 d2 t2 sum2 0@u64 d1
adcs u64 d3 t3 sum3 0@u64 d2
split u64 q rest t3 63
vpc u1 reaches q
assert alg t0 + 2**64*t1 + 2**128*t2 + 2**192*rest + 2**255*q + 2**256*d3 = sum0 + 2**64*sum1 + 2**128*sum2 + 2**192*sum3 + 19 mod 2**126
assert alg t0 + 2**64*t1 + 2**128*t2 + 2**192*rest + 2**255*q + 2**256*d3 = sum0 + 2**64*sum1 + 2**128*sum2 + 2**192*sum3 + 19 mod 2**107 - 1
assert alg t0 + 2**64*t1 + 2**128*t2 + 2**192*rest + 2**255*q + 2**256*d3 = sum0 + 2**64*sum1 + 2**128*sum2 + 2**192*sum3 + 19 mod 2**89 - 1
assert rng d3 = 0@u1

# the choice
cmov u64 r0 reaches t0 sum0
cmov u64 r1 reaches t1 sum1
cmov u64 r2 reaches t2 sum2
cmov u64 r3 reaches rest sum3

post rng r3 <= 9223372036854775807@u64
post rng r3 < 9223372036854775807@u64 || r2 < 18446744073709551615@u64 || r1 < 18446744073709551615@u64 || r0 < 18446744073709551597@u64
post alg r0 + 2**64*r1 + 2**128*r2 + 2**192*r3 = q*(t0 + 2**64*t1 + 2**128*t2 + 2**192*rest) + (1 - q)*(sum0 + 2**64*sum1 + 2**128*sum2 + 2**192*sum3) mod 2**126
post alg r0 + 2**64*r1 + 2**128*r2 + 2**192*r3 = q*(t0 + 2**64*t1 + 2**128*t2 + 2**192*rest) + (1 - q)*(sum0 + 2**64*sum1 + 2**128*sum2 + 2**192*sum3) mod 2**107 - 1
post alg r0 + 2**64*r1 + 2**128*r2 + 2**192*r3 = q*(t0 + 2**64*t1 + 2**128*t2 + 2**192*rest) + (1 - q)*(sum0 + 2**64*sum1 + 2**128*sum2 + 2**192*sum3) mod 2**89 - 1
post alg r0 + 2**64*r1 + 2**128*r2 + 2**192*r3 = a0 + 2**64*a1 + 2**128*a2 + 2**192*a3 + b0 + 2**64*b1 + 2**128*b2 + 2**192*b3 mod 2**255 - 19
end
