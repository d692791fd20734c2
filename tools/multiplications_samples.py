"""What tools/multiplications.py is tried on: small texts in place of the source, each changed in one way, with the reason it must be
refused for, or none where it must be accepted."""

UNIT, MIRROR, PLANE, SIZES, EXACT = (f"crates/{path}.rt" for path in ("unit/src/lib", "unit/src/mirror", "plane/src/lib", "plane/src/sizes", "exact/src/lib"))

BASE = {
    UNIT: """
use plane::Vec2;
mod mirror;
fn squared(a: i64) -> i64 { a * a }
pub fn turned(d: Vec2, f: Vec2, l: i64) -> Vec2
    requires { ⌜ Turnable d f l ⌝ }
{
    plane::settle(mirror::mirrored_vector(d, f), l)
}
""",
    MIRROR: """
// a * b, in a comment
use plane::Vec2;
ghost use Prim.Native.Nat.{_*_};
fn product(a: u32, b: u32) -> u64
    ensures { λ r. ⌜ r ≡ a * b ⌝ }
{
    u64::from(a) * u64::from(b)
}
fn long_product(a: u32, b: u64) -> u64
    requires { ⌜ a * b < 2 ^ 64 ⌝ }
    ensures { λ r. ⌜ r ≡ a * b ⌝ }
{
    let high = (b >> 32) as u32;
    let low = (b % 4294967296) as u32;
    (product(a, high) << 32) + product(a, low) // not a * b
}
fn half(a: u64) -> u64 { a }
pub(crate) fn mirrored_vector(d: Vec2, f: Vec2) -> Vec2
    ensures { λ r. ⌜ r ≡ mirrored d f ⌝ }
{
    let x = d.x + f.x;
    let n = half(long_product(7, 9));
    plane::nearest_vector(Vec2 { x, y: x }, 5)
}
""",
    PLANE: """
pub struct Vec2 { pub x: i64, pub y: i64 }
pub fn dot(a: Vec2, b: Vec2) -> i64 { a.x * b.x + a.y * b.y }
pub fn nearest_vector(v: Vec2, d: i64) -> Vec2
    ensures { λ r. ⌜ r ≡ nearestV v d ⌝ }
{
    let x = exact::nearest(v.x, d);
    Vec2 { x, y: x }
}
""",
    SIZES: """
fn east(d: Vec2) -> i64 { d.x * 1 }
""",
    EXACT: """
pub fn nearest(n: i64, d: i64) -> i64 { n / d + n % d }
""",
}

SUM = "    let x = d.x + f.x;\n"
HALF = "fn half(a: u64) -> u64 { a }"
SHIFT = "(product(a, high) << 32)"
CONTRACT = "    ensures { λ r. ⌜ r ≡ mirrored d f ⌝ }\n"
NOT_THE_PRODUCT = "product must read ( a : u32 , b : u32 ) -> u64 { u64 :: from ( a ) * u64 :: from ( b ) }"
NOT_TIED = "turned must read plane :: settle ( mirror :: mirrored_vector ( d , f ) , l )"
NOT_THE_SHIFT = "unit::mirror::long_product shifts left what is no product, or by more than a literal"
IMPORT = "use plane::Vec2;"

# name, file, the text that is changed, what it becomes
ACCEPTED = [
    ("as it stands", MIRROR, "", ""),
    ("a multiplication in a comment", MIRROR, SUM, SUM + "    // d.x * f.x << 3\n"),
    ("a multiplication in a contract of its own", MIRROR, HALF, "fn half(a: u64) -> u64 requires { ⌜ a * a < 9 ⌝ } { a }"),
    ("a ghost clause", MIRROR, CONTRACT, CONTRACT + "    ghost { a * b }\n"),
    ("a function that is not reached", PLANE, "a.x * b.x", "a.x * b.x * 2"),
    ("a call of an imported function", MIRROR, SUM, SUM + "    let q = nearest_vector(d, 5);\n", IMPORT, IMPORT + "\nuse plane::nearest_vector;"),
    ("a test and a negation", MIRROR, SUM, SUM + "    if !(d.x < 0) { return -(d.x); }\n"),
    ("a division where the image is rounded", EXACT, "n / d", "n / d / d"),
    ("the parts taken otherwise", MIRROR, "b >> 32", "b / 4294967296", "b % 4294967296", "b & 4294967295"),
    ("the size of a number", MIRROR, "half(long_product(7, 9))", "half(long_product(7, d.x.unsigned_abs()))"),
    ("a number in a wider type", MIRROR, "half(long_product(7, 9))", "half(u64::from(d.x as u32))"),
    ("a type that compares by derive", PLANE, "pub struct", "#[derive(Clone, Copy, PartialEq, Eq)]\npub struct"),
    ("the shift at the end of a block", MIRROR, SHIFT, "(if a < 1 { 0 } else { product(a, high) << 32 })"),
]

# name, file, the text that is changed, what it becomes, the reason
PRODUCTS = [
    ("a product of two i64", MIRROR, "d.x + f.x", "d.x * f.x", "unit::mirror::mirrored_vector has *"),
    ("a product inside a call's argument", MIRROR, "half(long_product(7, 9))", "half(long_product(7, 9 * 2))", "unit::mirror::mirrored_vector has *"),
    ("*=", MIRROR, SUM, SUM + "    x *= 2;\n", "unit::mirror::mirrored_vector has *="),
    ("a product without spaces", MIRROR, "d.x + f.x", "d.x*f.x", "unit::mirror::mirrored_vector has *"),
    ("a product over two lines", MIRROR, "d.x + f.x", "d.x\n        * f.x", "unit::mirror::mirrored_vector has *"),
    ("a product in a field", MIRROR, "y: x }", "y: x * 2 }", "unit::mirror::mirrored_vector has *"),
    ("a product in a function that only others call", MIRROR, HALF, "fn half(a: u64) -> u64 { a * 2 }", "unit::mirror::half has *"),
    ("a product in a function that nothing calls", MIRROR, HALF, HALF + "\nfn lone(a: u64) -> u64 { a * 2 }", "unit::mirror::lone has *"),
    ("a product one crate below", PLANE, "exact::nearest(v.x, d)", "exact::nearest(v.x * 1, d)", "plane::nearest_vector has *"),
    ("a product two crates below", EXACT, "n / d +", "n / d * 1 +", "exact::nearest has *"),
    ("a constant's product", MIRROR, HALF, "const MOST: u64 = 3 * 5;\n" + HALF, "the constant MOST has *"),
    ("a constant's shift", PLANE, "pub struct", "const MOST: [u64; 1] = [3 << 5];\npub struct", "the constant MOST has <<"),
    ("a number that is not whole", MIRROR, "d.x + f.x", "d.x / 0.5", "unit::mirror::mirrored_vector has a number that is not whole"),
    ("one that ends in a point", MIRROR, "d.x + f.x", "d.x / (2.)", "unit::mirror::mirrored_vector has a number that is not whole"),
    ("one with an exponent", EXACT, "n / d", "n / (1e0 / d)", "exact::nearest has a number that is not whole"),
    ("a float under another name", PLANE, "exact::nearest(v.x, d)", "exact::nearest(v.x as Real, d)", "plane::nearest_vector makes a number a Real"),
    ("sums in a loop", MIRROR, SUM, SUM + "    while x < 9 { x += f.x; }\n", "unit::mirror::mirrored_vector has a loop"),
]

THE_PRODUCT = [
    ("i64 in place of u32", MIRROR, "product(a: u32, b: u32) -> u64", "product(a: i64, b: i64) -> i64", NOT_THE_PRODUCT),
    ("one operand of 64 bits", MIRROR, "product(a: u32, b: u32)", "product(a: u32, b: u64)", NOT_THE_PRODUCT),
    ("a second multiplication", MIRROR, "* u64::from(b)", "* u64::from(b) * 1", NOT_THE_PRODUCT),
    ("another name", MIRROR, "fn product(", "fn times(", NOT_THE_PRODUCT),
    ("another meaning of u32", MIRROR, IMPORT, IMPORT + "\ntype u32 = u64;", "type begins no item that is followed"),
    ("another u32 brought in", MIRROR, IMPORT, IMPORT + "\nuse plane::u32;", "u32 is a type of numbers"),
    ("two of the name", MIRROR, HALF, HALF + "\nfn product(a: i64, b: i64) -> i64 { a }", "product is named twice"),
    ("the image settled elsewhere", UNIT, "mirror::mirrored_vector(d, f)", "mirrored_here(d, f)", NOT_TIED),
    ("the image multiplied before it is settled", UNIT, "plane::settle(mirror::mirrored_vector(d, f), l)", "plane::settle(scaled(mirror::mirrored_vector(d, f)), l)", NOT_TIED),
    ("another module of the name", UNIT, "mod mirror;", "use plane::mirror;", NOT_TIED),
]

CALLS = [
    ("a multiplying method", MIRROR, "d.x + f.x", "d.x.wrapping_mul(f.x)", "unit::mirror::mirrored_vector calls .wrapping_mul, which is not read"),
    ("a method of a pair's part", MIRROR, "d.x + f.x", "d.0.pow(2)", "unit::mirror::mirrored_vector calls .pow, which is not read"),
    ("a multiplying function of a type", MIRROR, "d.x + f.x", "i64::pow(d.x, 2)", "unit::mirror::mirrored_vector calls i64::pow, which is not read"),
    ("a conversion of its own", MIRROR, "d.x + f.x", "Wide::from(d.x)", "unit::mirror::mirrored_vector calls Wide::from, which is not read"),
    ("another type's size", MIRROR, "d.x + f.x", "Wide::unsigned_abs(d.x)", "unit::mirror::mirrored_vector calls Wide::unsigned_abs, which is not read"),
    ("a pair's own size", SIZES, "fn east(d: Vec2) -> i64 { d.x * 1 }", "impl Vec2 { pub fn unsigned_abs(self) -> u64 { (self.x * self.y) as u64 } }", "crates/plane/src/sizes.rt has a unsigned_abs of its own"),
    ("a pair's own conversion", SIZES, "fn east(d: Vec2) -> i64 { d.x * 1 }", "impl From<Vec2> for i64 { fn from(d: Vec2) -> i64 { d.x * d.y } }", "crates/plane/src/sizes.rt has a From of its own"),
    ("plane's wide dot product", MIRROR, "d.x + f.x", "plane::dot(d, f)", "plane::dot has *"),
    ("the same under an imported name", MIRROR, SUM, SUM + "    dot(d, f);\n", "plane::dot has *", IMPORT, IMPORT + "\nuse plane::dot;"),
    ("a function of the crate's root", MIRROR, "d.x + f.x", "crate::squared(d.x)", "unit::mirror::mirrored_vector calls crate::squared, which is not read"),
    ("a function of a deeper module", MIRROR, "d.x + f.x", "plane::deep::dot(d, f)", "unit::mirror::mirrored_vector calls plane::deep::dot, which is not read"),
    ("a function that is nowhere", MIRROR, "half(long", "halve(long", "unit::mirror::mirrored_vector calls halve, which is not read"),
    ("a function that calls itself", MIRROR, HALF, "fn half(a: u64) -> u64 { half(a) + a }", "unit::mirror::half calls itself"),
    ("a call of a value", MIRROR, "half(long_product(7, 9))", "(half)(long_product(7, 9))", "a call after ) is not followed"),
    ("a call with types", MIRROR, "half(long", "half::<u64>(long", "::< is not followed"),
    ("a call after a range", MIRROR, "d.x + f.x", "0..plane::dot(d, f)", "plane::dot has *"),
    ("a function of a module of its own named like a crate", MIRROR, "d.x + f.x", "exact::nearest(d.x, f.x)", "unit::mirror::mirrored_vector calls exact::nearest, which is not read", IMPORT, IMPORT + "\nmod exact;"),
    ("the same brought in", MIRROR, "d.x + f.x", "nearest(d.x, f.x)", "unit::mirror::mirrored_vector calls exact::nearest, which is not read", IMPORT, IMPORT + "\nmod exact;\nuse exact::nearest;"),
    ("a module brought in", MIRROR, "d.x + f.x", "exact::nearest(d.x, f.x)", "unit::mirror::mirrored_vector calls exact::nearest, which is not read", IMPORT, IMPORT + "\nuse crate::exact;"),
    ("a call after ::", MIRROR, "d.x + f.x", "plane::dot::(d, f)", "a call after :: is not followed"),
    ("a macro", MIRROR, "d.x + f.x", "times!(d.x, f.x)", "times! is not followed"),
]

HIDDEN = [
    ("a comment that is closed", MIRROR, SUM, "    /* // */ let x = d.x * f.x;\n", "/* is not followed"),
    ("a comment inside a contract", MIRROR, CONTRACT, "    ensures { ⌜ a // } { a * b }\n ⌝ }\n", "// inside a contract"),
    ("a comment inside a ghost use", MIRROR, IMPORT, IMPORT + "\nghost use a.{b as c//};\ntype u32 = u64;\nghost use a.{b as d//, e.{\nf}};", "// inside a ghost use"),
    ("the logic's comment in a contract", MIRROR, CONTRACT, "    ensures { ⌜ a ⌝ -- }\n }\n", "-- is not followed"),
    ("the logic's long comment in a contract", MIRROR, CONTRACT, "    ensures { {- } -} ⌜ a ⌝ }\n", "{- is not followed"),
    ("a text with a brace", MIRROR, SUM, SUM + '    let t = "}";\n', '" is not followed'),
    ("a raw text", MIRROR, SUM, SUM + "    let t = br#x#;\n", "# is not followed"),
    ("a letter with a brace", MIRROR, SUM, SUM + "    let t = '}';\n", "' is not followed"),
    ("a block in a signature", MIRROR, HALF, "fn half(a: [u64; { 3 * 5 }]) -> u64 { 1 }", "half has a block in its signature"),
    ("types before the parameters", MIRROR, HALF, "fn half<T>(a: u64) -> u64 { a }", "half has something before its parameters"),
    ("a module inside the file", MIRROR, HALF, HALF + "\nmod inner { fn f() {} }", "{ stands where ; is expected"),
    ("several names brought in", MIRROR, IMPORT, "use plane::{Vec2, dot};", "use with more than one plain path"),
    ("a name brought in as another", MIRROR, IMPORT, "use plane::dot as half2;", "use with more than one plain path"),
    ("a name brought in over its own", MIRROR, IMPORT, IMPORT + "\nuse plane::half;", "half is named twice"),
    ("a name brought in inside a body", MIRROR, SUM, SUM + "    use plane::dot;\n", "use inside a body"),
    ("operators of a type's own", PLANE, "pub struct", "impl Add for Vec2 { }\npub struct", "impl begins no item that is followed"),
    ("a bracket that closes nothing", MIRROR, SUM, SUM + "    ]\n", "] closes nothing"),
    ("a product as the number of a case", MIRROR, HALF, "enum Wide { A = 3 * 5 }\n" + HALF, "Wide is more than a list of fields"),
    ("a sign that is not seen", MIRROR, "half(long_product(7, 9))", "half\u200e(long_product(7, 9))", "mirrored_vector has a sign beyond ASCII"),
    ("a carriage return in a comment", MIRROR, SUM, "    // a\r let x = d.x * f.x;\n", "a carriage return is not followed"),
    ("a contract without braces", MIRROR, CONTRACT, "    ensures ⌜ a ⌝\n", "a contract stands in braces"),
]

SHIFTS = [
    ("a second left shift", MIRROR, "d.x + f.x", "d.x << 1", "left shifts: unit::mirror::long_product, unit::mirror::mirrored_vector"),
    ("no left shift", MIRROR, SHIFT, "product(a, high)", "left shifts: none"),
    ("<<=", MIRROR, SUM, SUM + "    x <<= 1;\n", "unit::mirror::mirrored_vector has <<="),
    ("a shift below", EXACT, "n / d +", "(n << 1) +", "left shifts: unit::mirror::long_product, exact::nearest"),
    ("a shift by a name", MIRROR, "<< 32", "<< high", NOT_THE_SHIFT),
    ("a shift by a sum", MIRROR, "<< 32", "<< 32 + 1", NOT_THE_SHIFT),
    ("a shift by one", MIRROR, "<< 32", "<< 1", NOT_THE_SHIFT),
    ("a shift of any number, to be called again", MIRROR, SHIFT, "(b << 32)", NOT_THE_SHIFT),
    ("a division", MIRROR, "d.x + f.x", "d.x / f.x", "unit::mirror::mirrored_vector has / by more than a literal"),
    ("a remainder", MIRROR, "d.x + f.x", "d.x % f.x", "unit::mirror::mirrored_vector has % by more than a literal"),
    ("a right shift by a name", MIRROR, "b >> 32", "b >> a", "unit::mirror::long_product has >> by more than a literal"),
]


def changed(file, *pairs):
    files = dict(BASE)
    for old, new in zip(pairs[::2], pairs[1::2]):
        assert old in files[file], f"{old!r} is not in {file}"
        files[file] = files[file].replace(old, new, 1)
    return files


def all_samples():
    """Name, files and the reason, an empty one where the sample must be accepted."""
    found = [(name, changed(file, *pairs), "") for name, file, *pairs in ACCEPTED]
    for name, file, old, new, reason, *pairs in PRODUCTS + THE_PRODUCT + CALLS + HIDDEN + SHIFTS:
        found.append((name, changed(file, old, new, *pairs), reason))
    return found
