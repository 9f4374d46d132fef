//! Layouts: which fields stand where in which record.

mod tables;

/// Columns of a record, counted from 1.
#[derive(Clone, Copy, Debug, PartialEq, Eq)]
pub struct Span {
    pub column: usize,
    pub length: usize,
}

impl Span {
    pub const fn new(column: usize, length: usize) -> Self {
        Self { column, length }
    }

    /// The bytes in these columns of a record that has them.
    pub fn of(self, record: &[u8]) -> &[u8] {
        &record[self.column - 1..][..self.length]
    }
}

/// Which register a field is looked up in.
#[derive(Clone, Copy, Debug, PartialEq, Eq)]
pub enum RegisterName {
    Agencies,
    Offices,
    Symbols,
    Units,
    Accounts,
}

/// The shape of a field that is given.
#[derive(Clone, Copy, Debug, PartialEq, Eq)]
pub enum Kind {
    Text,
    Digits,
    AboveZero,
    /// One of these letters.
    Letter(&'static [u8]),
    /// One of these Set IDs.
    SetId(&'static [&'static [u8]]),
    Symbol,
    Filler,
}

/// A row of a layout's table.
#[derive(Clone, Copy, Debug)]
pub struct Field {
    pub span: Span,
    pub kind: Kind,
    pub required: bool,
    pub register: Option<RegisterName>,
}

impl Field {
    pub const fn new(column: usize, length: usize, kind: Kind) -> Self {
        Self {
            span: Span::new(column, length),
            kind,
            required: false,
            register: None,
        }
    }

    pub const fn required(mut self) -> Self {
        self.required = true;
        self
    }

    pub const fn found_in(mut self, register: RegisterName) -> Self {
        self.register = Some(register);
        self
    }
}

/// What a companion rule asks of the other fields.
#[derive(Clone, Copy, Debug)]
pub enum Rule {
    Needs,
    Excludes,
}

/// A field that may be given only with, or only without, others.
#[derive(Clone, Copy, Debug)]
pub struct Companion {
    pub refused: Span,
    pub rule: Rule,
    pub others: &'static [Span],
}

/// The fields of which 100 times the amount is quantity times price.
#[derive(Clone, Copy, Debug)]
pub struct Product {
    pub amount: Span,
    pub quantity: Span,
    pub price: Span,
}

/// All that is fixed about one kind of record.
#[derive(Clone, Copy, Debug)]
pub struct Layout {
    pub length: usize,
    pub fields: &'static [Field],
    pub companions: &'static [Companion],
    pub product: Option<Product>,
}

/// What a record is by its first byte.
#[derive(Clone, Copy, Debug, PartialEq, Eq)]
pub enum Letter {
    Header,
    Detail,
    Posting,
}

impl Letter {
    pub fn of(record: &[u8]) -> Option<Self> {
        match record.first()? {
            b'H' => Some(Self::Header),
            b'D' => Some(Self::Detail),
            b'E' => Some(Self::Posting),
            _ => None,
        }
    }
}

/// The six kinds of transactions.
#[derive(Clone, Copy, Debug, PartialEq, Eq)]
pub enum SetId {
    Payment,
    Collection,
    ReceiverAdjustment,
    SenderAdjustment,
    ZeroDollar,
    PostSgl,
}

impl SetId {
    /// The Set ID in a header's columns 37 to 39.
    pub fn of_header(header: &[u8]) -> Option<Self> {
        match header.get(36..39)? {
            b"820" => Some(Self::Payment),
            b"810" => Some(Self::Collection),
            b"812" => Some(Self::ReceiverAdjustment),
            b"829" => Some(Self::SenderAdjustment),
            b"835" => Some(Self::ZeroDollar),
            b"840" => Some(Self::PostSgl),
            _ => None,
        }
    }

    pub fn digits(self) -> &'static [u8; 3] {
        match self {
            Self::Payment => b"820",
            Self::Collection => b"810",
            Self::ReceiverAdjustment => b"812",
            Self::SenderAdjustment => b"829",
            Self::ZeroDollar => b"835",
            Self::PostSgl => b"840",
        }
    }

    /// The layout of its records with this letter; there are no postings under 835.
    pub fn layout(self, letter: Letter) -> Option<&'static Layout> {
        tables::layout(self, letter)
    }

    pub fn is_original(self) -> bool {
        matches!(self, Self::Payment | Self::Collection)
    }

    pub fn is_adjustment(self) -> bool {
        matches!(self, Self::ReceiverAdjustment | Self::SenderAdjustment)
    }

    /// Whether its header has a total and its details have amounts.
    pub fn has_amounts(self) -> bool {
        self.is_original() || self.is_adjustment()
    }

    /// Where a header has its Transaction Total Amount.
    pub fn total(self) -> Option<Span> {
        self.has_amounts().then_some(Span::new(10, 14))
    }

    /// Where a header has its Sender DO Symbol and its own reference.
    pub fn own_pair(self) -> Option<[Span; 2]> {
        match self {
            Self::Payment | Self::Collection => Some([Span::new(32, 5), Span::new(40, 8)]),
            Self::ReceiverAdjustment | Self::SenderAdjustment => {
                Some([Span::new(32, 5), Span::new(55, 8)])
            }
            Self::ZeroDollar => Some([Span::new(18, 5), Span::new(26, 8)]),
            Self::PostSgl => None,
        }
    }

    /// Where a header has its Original DO Symbol and its original's reference.
    pub fn original_pair(self) -> Option<[Span; 2]> {
        match self {
            Self::ReceiverAdjustment | Self::SenderAdjustment => {
                Some([Span::new(50, 5), Span::new(40, 8)])
            }
            Self::PostSgl => Some([Span::new(10, 5), Span::new(18, 8)]),
            Self::Payment | Self::Collection | Self::ZeroDollar => None,
        }
    }

    /// Where a detail has its amount.
    pub fn amount(self) -> Option<Span> {
        match self {
            Self::Payment | Self::Collection => Some(Span::new(30, 14)),
            Self::ReceiverAdjustment | Self::SenderAdjustment => Some(Span::new(2, 14)),
            Self::ZeroDollar | Self::PostSgl => None,
        }
    }

    /// Where a detail has the number of its original's line.
    pub fn original_line(self) -> Option<Span> {
        match self {
            Self::ReceiverAdjustment | Self::SenderAdjustment => Some(Span::new(93, 6)),
            Self::PostSgl => Some(Span::new(2, 6)),
            Self::Payment | Self::Collection | Self::ZeroDollar => None,
        }
    }

    /// Where a detail has its sender's and its receiver's account symbol.
    pub fn symbols(self) -> Option<[Span; 2]> {
        match self {
            Self::Payment | Self::Collection => Some([Span::new(984, 27), Span::new(921, 27)]),
            Self::ReceiverAdjustment | Self::SenderAdjustment => {
                Some([Span::new(100, 27), Span::new(135, 27)])
            }
            Self::ZeroDollar => Some([Span::new(961, 27), Span::new(906, 27)]),
            Self::PostSgl => None,
        }
    }
}
