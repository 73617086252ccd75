//! What an operand is.
use core::fmt;

macro_rules! specs {
    ($($number:literal $spec:ident $name:literal)*) => {
        /// What an operand of a record is: a register, an immediate, memory of some form.
        #[derive(Clone, Copy, Debug, PartialEq, Eq, Hash)]
        #[repr(u8)]
        pub enum Spec {
            $(#[doc = concat!($name, ", number ", $number)] $spec = $number,)*
        }

        impl Spec {
            /// All of them, by rising number.
            pub const ALL: &'static [Spec] = &[$(Spec::$spec),*];

            /// The spec's name.
            pub const fn name(self) -> &'static str {
                match self {
                    $(Spec::$spec => $name,)*
                }
            }
        }
    };
}

specs! {
    0 Nothing "Nothing"
    1 RegRRR "RegRRR"
    2 RegMMM "RegMMM"
    3 RegVex "RegVex"
    4 Reg4 "Reg4"
    5 RegRRRMaskmerge "RegRRR_maskmerge"
    6 RegRRRMaskmergeSae "RegRRR_maskmerge_sae"
    7 RegRRRMaskmergeSaeNoround "RegRRR_maskmerge_sae_noround"
    8 RegMMMMaskmerge "RegMMM_maskmerge"
    9 RegMMMMaskmergeSaeNoround "RegMMM_maskmerge_sae_noround"
    10 RegVexMaskmerge "RegVex_maskmerge"
    11 ImmI8 "ImmI8"
    12 ImmU8 "ImmU8"
    13 ImmI16 "ImmI16"
    14 ImmU16 "ImmU16"
    15 ImmI32 "ImmI32"
    16 ImmI64 "ImmI64"
    17 ImmInDispField "ImmInDispField"
    18 Deref "Deref"
    19 DerefMask "Deref_mask"
    20 DerefRdi "Deref_rdi"
    21 DerefRsi "Deref_rsi"
    22 DerefEdi "Deref_edi"
    23 DerefEsi "Deref_esi"
    24 Disp "Disp"
    25 DispMask "Disp_mask"
    26 MemIndexScale "MemIndexScale"
    27 MemIndexScaleMask "MemIndexScale_mask"
    28 MemIndexScaleDisp "MemIndexScaleDisp"
    29 MemIndexScaleDispMask "MemIndexScaleDisp_mask"
    30 MemBaseIndexScale "MemBaseIndexScale"
    31 MemBaseIndexScaleMask "MemBaseIndexScale_mask"
    32 MemBaseIndexScaleDisp "MemBaseIndexScaleDisp"
    33 MemBaseIndexScaleDispMask "MemBaseIndexScaleDisp_mask"
    34 DispU64 "DispU64"
    35 DispU32 "DispU32"
}

impl Spec {
    /// The spec of a number, where there is one.
    pub fn of(number: u8) -> Option<Spec> {
        Spec::ALL.get(usize::from(number)).copied()
    }

    /// The spec's number.
    pub const fn number(self) -> u8 {
        self as u8
    }
}

impl fmt::Display for Spec {
    fn fmt(&self, f: &mut fmt::Formatter<'_>) -> fmt::Result {
        f.write_str(self.name())
    }
}
