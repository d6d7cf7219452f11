# A broken reduction: Barrett reduction modulo 3329 of a word without sign by a quotient that is rounded down twice, and that
# takes its result for the least remainder. 20158 is 2^26 / 3329 rounded down, where the Kyber reference implementation rounds to
# the nearest and to 20159:
#
#     t = ((uint32_t)20158 * a) >> 26;
#     return a - t * 3329;
#
# States: the difference does not overflow, r = a modulo 3329, and r < 3329.
# Known: the first two hold. The last does not: at a = 3329 the quotient is 0 and r is 3329 still, and that is the input
# that is printed, since it is the least. With one conditional subtraction behind it the result is right.
in u16 a

mulj u16 va a 20158@u16
split u32 high low va 26
vpc u16 t high
mul u16 u t 3329@u16
sub u16 r a u

assert alg r = a mod 3329
assert rng r < 3329@u16                   # refuted

# the repair
subb u16 less d r 3329@u16
cmov u16 y less r d
post alg y = a mod 3329
post rng y < 3329@u16
end
