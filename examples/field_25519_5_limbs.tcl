# Addition modulo 2^255 - 19 in five limbs of 51 bits, with the carries that bring the limbs back to 51 bits, as in
# curve25519-donna-c64 (Langley) and in the reference code of ed25519 with 64-bit words (amd64-51-30k): the sums of the limbs do
# not overflow, each limb hands what is above 51 bits to the next, and the last hands it back to the first, times 19.
#
# States: for limbs below 2^54 no sum overflows, the results are below 2^51, the first below 2^51 + 304, and their value is
# that of a + b less k4 (2^255 - 19), where k4 is the last carry.
# Known: true. The last line says it modulo 2^255 - 19, whose truth this verifier does not compute, since it is above 2^126.
# Over the integers the coefficients are too great too; the lines before say it modulo 2^126, 2^107 - 1 and 2^89 - 1, whose
# product is above both sides.
in u64 a0
in u64 a1
in u64 a2
in u64 a3
in u64 a4
in u64 b0
in u64 b1
in u64 b2
in u64 b3
in u64 b4
pre rng a0 < 18014398509481984@u64 && a1 < 18014398509481984@u64 && a2 < 18014398509481984@u64
pre rng a3 < 18014398509481984@u64 && a4 < 18014398509481984@u64
pre rng b0 < 18014398509481984@u64 && b1 < 18014398509481984@u64 && b2 < 18014398509481984@u64
pre rng b3 < 18014398509481984@u64 && b4 < 18014398509481984@u64

# the sums of the limbs
add u64 sum0 a0 b0
add u64 sum1 a1 b1
add u64 sum2 a2 b2
add u64 sum3 a3 b3
add u64 sum4 a4 b4

# the carries
split u64 k0 x0 sum0 51
add u64 t1 sum1 k0
assert alg t1 = a1 + b1 + k0
split u64 k1 r1 t1 51
add u64 t2 sum2 k1
assert alg t2 = a2 + b2 + k1
split u64 k2 r2 t2 51
add u64 t3 sum3 k2
assert alg t3 = a3 + b3 + k2
split u64 k3 r3 t3 51
add u64 t4 sum4 k3
assert alg t4 = a4 + b4 + k3
split u64 k4 r4 t4 51
assert rng k4 <= 16@u64
mul u64 m k4 19@u64
add u64 r0 x0 m

post rng r0 < 2251799813685552@u64
post rng r1 < 2251799813685248@u64 && r2 < 2251799813685248@u64 && r3 < 2251799813685248@u64 && r4 < 2251799813685248@u64
post alg r0 + 2**51*r1 + 2**102*r2 + 2**153*r3 + 2**204*r4 + 2**255*k4 - 19*k4 = a0 + 2**51*a1 + 2**102*a2 + 2**153*a3 + 2**204*a4 + b0 + 2**51*b1 + 2**102*b2 + 2**153*b3 + 2**204*b4 mod 2**126
post alg r0 + 2**51*r1 + 2**102*r2 + 2**153*r3 + 2**204*r4 + 2**255*k4 - 19*k4 = a0 + 2**51*a1 + 2**102*a2 + 2**153*a3 + 2**204*a4 + b0 + 2**51*b1 + 2**102*b2 + 2**153*b3 + 2**204*b4 mod 2**107 - 1
post alg r0 + 2**51*r1 + 2**102*r2 + 2**153*r3 + 2**204*r4 + 2**255*k4 - 19*k4 = a0 + 2**51*a1 + 2**102*a2 + 2**153*a3 + 2**204*a4 + b0 + 2**51*b1 + 2**102*b2 + 2**153*b3 + 2**204*b4 mod 2**89 - 1
post alg r0 + 2**51*r1 + 2**102*r2 + 2**153*r3 + 2**204*r4 = a0 + 2**51*a1 + 2**102*a2 + 2**153*a3 + 2**204*a4 + b0 + 2**51*b1 + 2**102*b2 + 2**153*b3 + 2**204*b4 mod 2**255 - 19
end
