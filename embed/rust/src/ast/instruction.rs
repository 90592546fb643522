//! The instructions, with their numbers in the code.
use super::Operand;

// The enum, each instruction from its number and operands, and back, and its word.
macro_rules! instructions {
    ($($(#[$doc:meta])* $name:ident $(($($operand:ident),+))? = $number:literal $word:literal,)+) => {
        /// An instruction with its operands `a`, `b` and `c`, from left to right.
        ///
        /// Each variant has its word in the text.
        #[derive(Copy, Clone, Debug, PartialEq, Eq, Hash)]
        #[allow(missing_docs)]
        pub enum Instruction {
            $($(#[$doc])* $name $({ $($operand: Operand),+ })?,)+
        }

        impl Instruction {
            // The instruction with the number and the first operands, if it takes `count` of them.
            #[inline]
            pub(crate) fn of_code(number: u8, count: usize, operands: [Operand; 3]) -> Option<Self> {
                match number {
                    $($number if count == <[&str]>::len(&[$($(stringify!($operand)),+)?]) => {
                        let [$($($operand,)+)? ..] = operands;
                        Some(Instruction::$name $({ $($operand),+ })?)
                    })+
                    _ => None,
                }
            }

            /// The same instruction of other operands: of what `f` returns for each, from left to right.
            pub fn map_operands(self, mut f: impl FnMut(Operand) -> Operand) -> Self {
                match self {
                    $(Instruction::$name $({ $($operand),+ })? => {
                        Instruction::$name $({ $($operand: f($operand)),+ })?
                    })+
                }
            }

            /// The word of the text, such as `add` or `sadd.with.overflow`.
            ///
            /// ```
            /// use souper_ir::ast::Instruction;
            ///
            /// assert_eq!(Instruction::Hole.word(), "hole");
            /// ```
            pub fn word(&self) -> &'static str {
                match self {
                    $(Instruction::$name { .. } => $word,)+
                }
            }

            /// The operands, from left to right.
            pub fn operands(&self) -> impl DoubleEndedIterator<Item = Operand> {
                self.up_to_three().into_iter().flatten()
            }

            // The operands, from left to right, and then none.
            pub(super) fn up_to_three(&self) -> [Option<Operand>; 3] {
                let mut all = [None; 3];
                self.with_code(|_, operands| {
                    for (place, operand) in all.iter_mut().zip(operands) {
                        *place = Some(**operand);
                    }
                });
                all
            }

            // Gives the number and the operands to the function.
            pub(crate) fn with_code<T>(&self, of: impl FnOnce(u8, &[&Operand]) -> T) -> T {
                match self {
                    $(Instruction::$name $({ $($operand),+ })? => of($number, &[$($($operand),+)?]),)+
                }
            }
        }
    };
}

instructions! {
    /// `add`: the sum.
    Add(a, b) = 0 "add",
    /// `addnsw`: the sum; undefined if it overflows as signed numbers.
    AddNsw(a, b) = 1 "addnsw",
    /// `addnuw`: the sum; undefined if it overflows as unsigned numbers.
    AddNuw(a, b) = 2 "addnuw",
    /// `addnw`: the sum; undefined if it overflows either way.
    AddNw(a, b) = 3 "addnw",
    /// `sub`: the difference.
    Sub(a, b) = 4 "sub",
    /// `subnsw`: the difference; undefined if it overflows as signed numbers.
    SubNsw(a, b) = 5 "subnsw",
    /// `subnuw`: the difference; undefined if it overflows as unsigned numbers.
    SubNuw(a, b) = 6 "subnuw",
    /// `subnw`: the difference; undefined if it overflows either way.
    SubNw(a, b) = 7 "subnw",
    /// `mul`: the product.
    Mul(a, b) = 8 "mul",
    /// `mulnsw`: the product; undefined if it overflows as signed numbers.
    MulNsw(a, b) = 9 "mulnsw",
    /// `mulnuw`: the product; undefined if it overflows as unsigned numbers.
    MulNuw(a, b) = 10 "mulnuw",
    /// `mulnw`: the product; undefined if it overflows either way.
    MulNw(a, b) = 11 "mulnw",
    /// `udiv`: the quotient of unsigned numbers.
    Udiv(a, b) = 12 "udiv",
    /// `sdiv`: the quotient of signed numbers.
    Sdiv(a, b) = 13 "sdiv",
    /// `udivexact`: the quotient of unsigned numbers; undefined if there is a remainder.
    UdivExact(a, b) = 14 "udivexact",
    /// `sdivexact`: the quotient of signed numbers; undefined if there is a remainder.
    SdivExact(a, b) = 15 "sdivexact",
    /// `urem`: the remainder of unsigned numbers.
    Urem(a, b) = 16 "urem",
    /// `srem`: the remainder of signed numbers.
    Srem(a, b) = 17 "srem",
    /// `and`: bitwise and.
    And(a, b) = 18 "and",
    /// `or`: bitwise or.
    Or(a, b) = 19 "or",
    /// `xor`: bitwise exclusive or.
    Xor(a, b) = 20 "xor",
    /// `shl`: `a` shifted left by `b` bits; undefined if `b` is not below the width.
    Shl(a, b) = 21 "shl",
    /// `shlnsw`: as `shl`; undefined also if it overflows as a signed number.
    ShlNsw(a, b) = 22 "shlnsw",
    /// `shlnuw`: as `shl`; undefined also if it overflows as an unsigned number.
    ShlNuw(a, b) = 23 "shlnuw",
    /// `shlnw`: as `shl`; undefined also if it overflows either way.
    ShlNw(a, b) = 24 "shlnw",
    /// `lshr`: `a` shifted right by `b` bits, zeros shifted in; undefined if `b` is not below the width.
    Lshr(a, b) = 25 "lshr",
    /// `lshrexact`: as `lshr`; undefined also if a set bit is shifted out.
    LshrExact(a, b) = 26 "lshrexact",
    /// `ashr`: `a` shifted right by `b` bits, its sign shifted in; undefined if `b` is not below the width.
    Ashr(a, b) = 27 "ashr",
    /// `ashrexact`: as `ashr`; undefined also if a set bit is shifted out.
    AshrExact(a, b) = 28 "ashrexact",
    /// `select`: `b` if `a` is 1, else `c`.
    Select(a, b, c) = 29 "select",
    /// `zext`: `a` in a wider type, as an unsigned number.
    Zext(a) = 30 "zext",
    /// `sext`: `a` in a wider type, as a signed number.
    Sext(a) = 31 "sext",
    /// `trunc`: the lower bits of `a`, in a narrower type.
    Trunc(a) = 32 "trunc",
    /// `eq`: whether `a` equals `b`.
    Eq(a, b) = 33 "eq",
    /// `ne`: whether `a` differs from `b`.
    Ne(a, b) = 34 "ne",
    /// `ult`: whether `a` is below `b`, as unsigned numbers.
    Ult(a, b) = 35 "ult",
    /// `slt`: whether `a` is below `b`, as signed numbers.
    Slt(a, b) = 36 "slt",
    /// `ule`: whether `a` is not above `b`, as unsigned numbers.
    Ule(a, b) = 37 "ule",
    /// `sle`: whether `a` is not above `b`, as signed numbers.
    Sle(a, b) = 38 "sle",
    /// `ctpop`: the number of set bits.
    Ctpop(a) = 39 "ctpop",
    /// `bswap`: the bytes in reverse order.
    Bswap(a) = 40 "bswap",
    /// `bitreverse`: the bits in reverse order.
    BitReverse(a) = 41 "bitreverse",
    /// `cttz`: the number of zeros below the lowest set bit.
    Cttz(a) = 42 "cttz",
    /// `ctlz`: the number of zeros above the highest set bit.
    Ctlz(a) = 43 "ctlz",
    /// `fshl`: the upper half of `a` and `b`, one after the other, shifted left by `c` bits.
    Fshl(a, b, c) = 44 "fshl",
    /// `fshr`: the lower half of `a` and `b`, one after the other, shifted right by `c` bits.
    Fshr(a, b, c) = 45 "fshr",
    /// `sadd.with.overflow`: the sum, and whether it overflows as signed numbers.
    SaddWithOverflow(a, b) = 46 "sadd.with.overflow",
    /// `uadd.with.overflow`: the sum, and whether it overflows as unsigned numbers.
    UaddWithOverflow(a, b) = 47 "uadd.with.overflow",
    /// `ssub.with.overflow`: the difference, and whether it overflows as signed numbers.
    SsubWithOverflow(a, b) = 48 "ssub.with.overflow",
    /// `usub.with.overflow`: the difference, and whether it overflows as unsigned numbers.
    UsubWithOverflow(a, b) = 49 "usub.with.overflow",
    /// `smul.with.overflow`: the product, and whether it overflows as signed numbers.
    SmulWithOverflow(a, b) = 50 "smul.with.overflow",
    /// `umul.with.overflow`: the product, and whether it overflows as unsigned numbers.
    UmulWithOverflow(a, b) = 51 "umul.with.overflow",
    /// `sadd.sat`: the sum of signed numbers, or the nearest number of the type.
    SaddSat(a, b) = 52 "sadd.sat",
    /// `uadd.sat`: the sum of unsigned numbers, or the nearest number of the type.
    UaddSat(a, b) = 53 "uadd.sat",
    /// `ssub.sat`: the difference of signed numbers, or the nearest number of the type.
    SsubSat(a, b) = 54 "ssub.sat",
    /// `usub.sat`: the difference of unsigned numbers, or the nearest number of the type.
    UsubSat(a, b) = 55 "usub.sat",
    /// `extractvalue`: component `b` of `a`: of a result with overflow, 0 the number and 1 the overflow.
    ExtractValue(a, b) = 56 "extractvalue",
    /// `hole`: an unknown instruction or value.
    Hole = 57 "hole",
    /// `freeze`: `a`, or any one number if `a` is undefined or poison.
    Freeze(a) = 58 "freeze",
}
