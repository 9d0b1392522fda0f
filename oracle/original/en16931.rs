//! The `en16931` crate, as far as the settlement reader leans on it: the published files, and below
//! them stand-ins for what was not published with them.

pub mod amount;
pub mod date;
pub mod invoice;
pub mod numeric;

pub use amount::InvoiceAmount;
pub use date::Date;
pub use error::{AmountError, ParseAmountError, ParseDateError, ParseDecimalError};
pub use invoice::{DocumentKind, Invoice};
pub use numeric::{Percentage, Quantity};

// ---- stand-ins: everything below is ours ----

pub mod error {
    use core::fmt;

    #[derive(Debug, Clone, PartialEq, Eq)]
    pub enum ParseAmountError {
        Empty,
        Malformed { input: String },
        TooManyDecimals { input: String, max: u8 },
        OutOfRange { input: String },
    }
    #[derive(Debug, Clone, PartialEq, Eq)]
    pub enum AmountError {
        Overflow,
        PrecisionLoss { value: String, max: u8 },
    }
    #[derive(Debug, Clone, PartialEq, Eq)]
    pub enum ParseDecimalError {
        Malformed { input: String },
        OutOfRange { input: String },
        TooPrecise { input: String },
    }
    #[derive(Debug, Clone, PartialEq, Eq)]
    pub enum ParseDateError {
        Malformed { input: String },
        NotACalendarDay { year: i32, month: u8, day: u8 },
    }
    // The wording is free; messages 3, 4, 5 and 13 are told by it.
    impl fmt::Display for ParseAmountError {
        fn fmt(&self, f: &mut fmt::Formatter<'_>) -> fmt::Result {
            f.write_str(match self {
                Self::Empty => "amount: empty",
                Self::Malformed { .. } => "amount: malformed",
                Self::TooManyDecimals { .. } => "amount: over two decimals",
                Self::OutOfRange { .. } => "amount: out of range",
            })
        }
    }
    impl fmt::Display for ParseDateError {
        fn fmt(&self, f: &mut fmt::Formatter<'_>) -> fmt::Result {
            f.write_str(match self {
                Self::Malformed { .. } => "date: malformed",
                Self::NotACalendarDay { .. } => "date: no such day",
            })
        }
    }
    impl std::error::Error for ParseAmountError {}
    impl std::error::Error for ParseDateError {}
}

pub mod fmt {
    use core::fmt::{Formatter, Result};
    pub fn number(f: &mut Formatter<'_>, s: &str) -> Result {
        f.pad(s)
    }
    pub fn padded(f: &mut Formatter<'_>, s: &str) -> Result {
        f.pad(s)
    }
}

pub mod codes {
    /// The list is sorted.
    pub fn contains(list: &[&str], code: &str) -> bool {
        list.binary_search(&code).is_ok()
    }
    pub mod generated {
        /// Debian's iso-codes, alphabetic codes, sorted (written by build.sh).
        pub const CURRENCY_CODES: &[&str] = include!("currencies.in");
        pub const CREDIT_NOTE_TYPE_CODES: &[&str] = &[];
    }
}

/// `classify` answers from the rules number instead of BT-24.
pub mod profiles {
    use std::sync::atomic::{AtomicU32, Ordering};

    pub static RULES: AtomicU32 = AtomicU32::new(0);
    const BITS: [&str; 12] = [
        "BR-12", "BR-13", "BR-14", "BR-15", "BR-31", "BR-32", "BR-36", "BR-37", "BR-45", "BR-46",
        "BR-47", "BR-55",
    ];
    pub struct Core;
    impl Core {
        pub fn runs(&self, rule: &str) -> bool {
            let bit = BITS.iter().position(|r| *r == rule).expect("one of the twelve rules");
            RULES.load(Ordering::Relaxed) >> bit & 1 == 1
        }
    }
    pub struct Profile {
        pub core: Core,
    }
    pub enum Declaration {
        Known(Profile),
        Other,
    }
    pub fn classify(_bt24: Option<&str>) -> Declaration {
        Declaration::Known(Profile { core: Core })
    }
}

pub mod extensions {
    #[derive(Debug, Clone, PartialEq, Eq, Default)]
    pub struct Extensions;
}

#[derive(Debug, Clone, Copy, PartialEq, Eq, PartialOrd, Ord)]
pub enum Severity {
    Fatal,
    Warning,
    Info,
}
pub struct ValidationReport;

/// Outside the settlement; named by `read.rs` only.
#[derive(Debug, Clone, PartialEq, Eq)]
pub struct Attachment;
impl Attachment {
    pub fn new(_: Vec<u8>, _: &str, _: &str) -> Result<Self, String> {
        Ok(Self)
    }
}

#[derive(Debug, Clone, PartialEq, Eq)]
pub struct DocumentReference(String);
impl DocumentReference {
    pub fn new(s: impl Into<String>) -> Self {
        Self(s.into())
    }
    pub fn as_str(&self) -> &str {
        &self.0
    }
}

#[derive(Debug, Clone, PartialEq, Eq)]
pub struct Identifier {
    content: String,
    scheme: Option<String>,
}
impl Identifier {
    pub fn new(content: impl Into<String>) -> Self {
        Self { content: content.into(), scheme: None }
    }
    pub fn schemed(content: impl Into<String>, scheme: impl Into<String>) -> Self {
        Self { content: content.into(), scheme: Some(scheme.into()) }
    }
    pub fn content(&self) -> &str {
        &self.content
    }
    pub fn scheme(&self) -> Option<&str> {
        self.scheme.as_deref()
    }
}

#[derive(Debug, Clone, Copy, PartialEq, Eq, Default)]
pub struct UnitPriceAmount(rust_decimal::Decimal);
impl UnitPriceAmount {
    pub fn new(d: rust_decimal::Decimal) -> Self {
        Self(d)
    }
}
