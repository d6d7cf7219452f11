# The product of two numbers of two 32-bit limbs each, row by row, as a processor does it that multiplies two words and adds two
# more to the product of 64 bits (`umaal` of ARM; Knuth, The Art of Computer Programming, volume 2, algorithm M of 4.3.1).
#
# States: no accumulator of 64 bits overflows, each step is an equation over the integers, and the four limbs r are the product.
# Known: true, and all of it is shown. That nothing overflows rests on (2^32 - 1)^2 + 2 (2^32 - 1) = 2^64 - 1, which the
# intervals see; the equations are substitutions.
in u32 a0
in u32 a1
in u32 b0
in u32 b1

# the row of b0
mulj u32 p0 a0 b0
split u64 h0 l0 p0 32
vpc u32 r0 l0
mulj u32 p1 a1 b0
add u64 q1 p1 h0
split u64 h1 l1 q1 32
assert alg l0 + 2**32*l1 + 2**64*h1 = (a0 + 2**32*a1) * b0

# the row of b1
mulj u32 p2 a0 b1
add u64 q2 p2 l1
split u64 h2 l2 q2 32
vpc u32 r1 l2
mulj u32 p3 a1 b1
add u64 q3 p3 h1
add u64 q4 q3 h2
split u64 h3 l3 q4 32
vpc u32 r2 l3
vpc u32 r3 h3

post alg l0 + 2**32*l2 + 2**64*l3 + 2**96*h3 = (a0 + 2**32*a1) * (b0 + 2**32*b1)
post alg r0 + 2**32*r1 + 2**64*r2 + 2**96*r3 = (a0 + 2**32*a1) * (b0 + 2**32*b1)
end
