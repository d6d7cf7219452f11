# A program with a cut that needs it: four coefficients are added, and the sum is reduced by Barrett's method modulo 3329, as at
# the end of polyvec_basemul_acc_montgomery and poly_reduce in the Kyber reference implementation (pq-crystals/kyber, ref).
#
# States: the sum fits 16 bits, and the result is its remainder modulo 3329 from -1664 to 1664.
# Known: true. The four coefficients have 64 bits together, too many for a walk, and the reduction keeps low halves of products,
# which a substitution cannot follow. Behind the cut only the sum is left, with what the cut says of it: the goals there rest on
# its 16 bits, and are walked. Without the cut the congruence of r with the sum is unproved.
in s16 x0
in s16 x1
in s16 x2
in s16 x3
pre rng -6658@s16 <= x0 && x0 <= 6658@s16 && -6658@s16 <= x1 && x1 <= 6658@s16
pre rng -6658@s16 <= x2 && x2 <= 6658@s16 && -6658@s16 <= x3 && x3 <= 6658@s16

add s16 y1 x0 x1
add s16 y2 y1 x2
add s16 a y2 x3
assert alg a = x0 + x1 + x2 + x3
cut rng -26632@s16 <= a && a <= 26632@s16

mulj s16 va a 20159@s16
add s32 rounded va 33554432@s32
split s32 high low rounded 26
vpc s16 t high
mull s16 carry product t 3329@s16
cast s16 u product
cast s32 wide_a a
cast s32 wide_u u
sub s32 difference wide_a wide_u
cast s16 r difference

post alg r = a mod 3329
post rng -1664@s16 <= r && r <= 1664@s16
end
