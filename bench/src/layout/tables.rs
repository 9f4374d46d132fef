//! The tables of fields, in the order of docs/FORMAT.md.

use super::RegisterName::{Accounts, Agencies, Offices, Symbols, Units};
use super::{Companion, Field, Kind, Layout, Letter, Product, Rule, SetId, Span};

pub fn layout(set_id: SetId, letter: Letter) -> Option<&'static Layout> {
    match set_id {
        SetId::Payment | SetId::Collection => match letter {
            Letter::Header => Some(&PAYMENT_HEADER_LAYOUT),
            Letter::Detail => Some(&PAYMENT_DETAIL_LAYOUT),
            Letter::Posting => Some(&POSTING_LAYOUT),
        },
        SetId::ReceiverAdjustment | SetId::SenderAdjustment => match letter {
            Letter::Header => Some(&ADJUSTMENT_HEADER_LAYOUT),
            Letter::Detail => Some(&ADJUSTMENT_DETAIL_LAYOUT),
            Letter::Posting => Some(&POSTING_LAYOUT),
        },
        SetId::ZeroDollar => match letter {
            Letter::Header => Some(&ZERO_DOLLAR_HEADER_LAYOUT),
            Letter::Detail => Some(&ZERO_DOLLAR_DETAIL_LAYOUT),
            Letter::Posting => None,
        },
        SetId::PostSgl => match letter {
            Letter::Header => Some(&POST_SGL_HEADER_LAYOUT),
            Letter::Detail => Some(&POST_SGL_DETAIL_LAYOUT),
            Letter::Posting => Some(&POST_SGL_POSTING_LAYOUT),
        },
    }
}

static PAYMENT_HEADER_LAYOUT: Layout = only_fields(49, &PAYMENT_HEADER);
static PAYMENT_DETAIL_LAYOUT: Layout = Layout {
    length: 1077,
    fields: &PAYMENT_DETAIL,
    companions: &PAYMENT_COMPANIONS,
    product: Some(Product {
        amount: Span::new(30, 14),
        quantity: Span::new(906, 14),
        price: Span::new(1049, 14),
    }),
};
static POSTING_LAYOUT: Layout = only_fields(23, &POSTING);

static ADJUSTMENT_HEADER_LAYOUT: Layout = only_fields(64, &ADJUSTMENT_HEADER);
static ADJUSTMENT_DETAIL_LAYOUT: Layout = Layout {
    length: 489,
    fields: &ADJUSTMENT_DETAIL,
    companions: &ADJUSTMENT_COMPANIONS,
    product: None,
};

static ZERO_DOLLAR_HEADER_LAYOUT: Layout = only_fields(39, &ZERO_DOLLAR_HEADER);
static ZERO_DOLLAR_DETAIL_LAYOUT: Layout = Layout {
    length: 1056,
    fields: &ZERO_DOLLAR_DETAIL,
    companions: &ZERO_DOLLAR_COMPANIONS,
    product: None,
};

static POST_SGL_HEADER_LAYOUT: Layout = only_fields(39, &POST_SGL_HEADER);
static POST_SGL_DETAIL_LAYOUT: Layout = only_fields(262, &POST_SGL_DETAIL);
static POST_SGL_POSTING_LAYOUT: Layout = only_fields(23, &POST_SGL_POSTING);

const fn only_fields(length: usize, fields: &'static [Field]) -> Layout {
    Layout {
        length,
        fields,
        companions: &[],
        product: None,
    }
}

const fn text(column: usize, length: usize) -> Field {
    Field::new(column, length, Kind::Text)
}

const fn digits(column: usize, length: usize) -> Field {
    Field::new(column, length, Kind::Digits)
}

const fn above_zero(column: usize, length: usize) -> Field {
    Field::new(column, length, Kind::AboveZero)
}

const fn letter(column: usize, letters: &'static [u8]) -> Field {
    Field::new(column, 1, Kind::Letter(letters))
}

const fn set_id(values: &'static [&'static [u8]]) -> Field {
    Field::new(37, 3, Kind::SetId(values))
}

const fn symbol(column: usize) -> Field {
    Field::new(column, 27, Kind::Symbol).found_in(Symbols)
}

const fn filler(column: usize, length: usize) -> Field {
    Field::new(column, length, Kind::Filler)
}

const fn needs(refused: Span, others: &'static [Span]) -> Companion {
    Companion {
        refused,
        rule: Rule::Needs,
        others,
    }
}

const fn excludes(refused: Span, others: &'static [Span]) -> Companion {
    Companion {
        refused,
        rule: Rule::Excludes,
        others,
    }
}

static PAYMENT_COMPANIONS: [Companion; 5] = [
    needs(Span::new(948, 8), &[Span::new(921, 27)]),
    needs(Span::new(965, 4), &[Span::new(956, 9)]),
    needs(Span::new(1011, 8), &[Span::new(984, 27)]),
    needs(Span::new(1028, 4), &[Span::new(1019, 9)]),
    excludes(
        Span::new(1063, 15),
        &[Span::new(1019, 9), Span::new(1028, 4)],
    ),
];

static ADJUSTMENT_COMPANIONS: [Companion; 2] = [
    needs(Span::new(127, 8), &[Span::new(100, 27)]),
    needs(Span::new(162, 8), &[Span::new(135, 27)]),
];

static ZERO_DOLLAR_COMPANIONS: [Companion; 3] = [
    needs(Span::new(942, 4), &[Span::new(933, 9)]),
    needs(Span::new(997, 4), &[Span::new(988, 9)]),
    excludes(Span::new(1032, 15), &[Span::new(988, 9), Span::new(997, 4)]),
];

static PAYMENT_HEADER: [Field; 8] = [
    letter(1, b"H").required(),                  // Record Type
    digits(2, 8).required().found_in(Agencies),  // ALC
    digits(10, 14).required(),                   // Transaction Total Amount
    digits(24, 8).required().found_in(Agencies), // Customer ALC
    text(32, 5).required().found_in(Offices),    // Sender DO Symbol
    set_id(&[b"820", b"810"]).required(),        // Transaction Set ID
    text(40, 8),                                 // Document Reference Number
    filler(48, 2),                               // Filler
];

static PAYMENT_DETAIL: [Field; 33] = [
    letter(1, b"D").required(),               // Record Type
    text(2, 16),                              // Accounting Classification Code
    text(18, 12),                             // Account Classification Reference Number
    above_zero(30, 14).required(),            // Detail Amount
    text(44, 60),                             // Contact Name
    text(104, 17),                            // Contact Phone Number
    text(121, 6),                             // Contract Line Item Number
    text(127, 17),                            // Contract Number
    filler(144, 2),                           // Filler
    text(146, 320),                           // Description
    digits(466, 8),                           // Fiscal Station Number
    text(474, 22).required(),                 // Invoice Number
    text(496, 30),                            // JAS Number
    text(526, 20),                            // Job Number
    text(546, 320),                           // Miscellaneous Transaction Information
    text(866, 17).required(),                 // Obligating Document Number
    letter(883, b"FP").required(),            // Pay Flag
    text(884, 22).required(),                 // Purchase Order Number
    above_zero(906, 14).required(),           // Quantity
    letter(920, b"CP"),                       // FY Obligation ID
    symbol(921),                              // Receiver Treasury Account Symbol
    text(948, 8),                             // Receiver Business Event Type Code
    text(956, 9),                             // Receiver DUNS Number
    text(965, 4),                             // Receiver DUNS+4 Number
    text(969, 15),                            // Requisition Number
    symbol(984).required(),                   // Sender Treasury Account Symbol
    text(1011, 8),                            // Sender Business Event Type Code
    text(1019, 9),                            // Sender DUNS Number
    text(1028, 4),                            // Sender DUNS+4 Number
    text(1032, 15),                           // ACT Trace Number
    text(1047, 2).required().found_in(Units), // Unit of Issue
    above_zero(1049, 14).required(),          // Unit Price
    text(1063, 15),                           // DOD Activity Address Code
];

static POSTING: [Field; 7] = [
    letter(1, b"E").required(),                 // Record Type
    letter(2, b"A").required(),                 // SGL Action Flag
    digits(3, 4).required().found_in(Accounts), // SGL Account Number
    letter(7, b"SR").required(),                // Sender / Receiver SGL Flag
    letter(8, b"FN").required(),                // Federal / Non-Federal Flag
    digits(9, 14).required(),                   // SGL Amount
    letter(23, b"DC").required(),               // Debit / Credit Flag
];

static ADJUSTMENT_HEADER: [Field; 11] = [
    letter(1, b"H").required(),                  // Record Type
    digits(2, 8).required().found_in(Agencies),  // ALC
    digits(10, 14).required(),                   // Transaction Total Amount
    digits(24, 8).required().found_in(Agencies), // Customer ALC
    text(32, 5).required().found_in(Offices),    // Sender DO Symbol
    set_id(&[b"812", b"829"]).required(),        // Transaction Set ID
    text(40, 8).required(),                      // Original Document Reference Number
    filler(48, 2),                               // Filler
    text(50, 5).required(),                      // Original DO Symbol
    text(55, 8),                                 // Voucher Number
    filler(63, 2),                               // Filler
];

static ADJUSTMENT_DETAIL: [Field; 11] = [
    letter(1, b"D").required(),   // Record Type
    above_zero(2, 14).required(), // Detail Amount
    text(16, 60),                 // Adjusting Contact Name
    text(76, 17),                 // Adjusting Contact Phone Number
    digits(93, 6).required(),     // Original Line Item
    letter(99, b"CP"),            // FY Obligation ID
    symbol(100).required(),       // Sender Treasury Account Symbol
    text(127, 8),                 // Sender Business Event Type Code
    symbol(135),                  // Receiver Treasury Account Symbol
    text(162, 8),                 // Receiver Business Event Type Code
    text(170, 320),               // Description
];

static ZERO_DOLLAR_HEADER: [Field; 8] = [
    letter(1, b"H").required(),                  // Record Type
    digits(2, 8).required().found_in(Agencies),  // ALC
    digits(10, 8).required().found_in(Agencies), // Customer ALC
    text(18, 5).required().found_in(Offices),    // Sender DO Symbol
    filler(23, 3),                               // Filler
    text(26, 8),                                 // Trace Number
    filler(34, 3),                               // Filler
    set_id(&[b"835"]).required(),                // Transaction Set ID
];

static ZERO_DOLLAR_DETAIL: [Field; 31] = [
    letter(1, b"D").required(),    // Record Type
    text(2, 16),                   // Accounting Classification Code
    text(18, 12),                  // Account Classification Reference Number
    text(30, 60),                  // Contact Name
    text(90, 17),                  // Contact Phone Number
    text(107, 6),                  // Contract Line Item Number
    text(113, 17).required(),      // Contract Number
    filler(130, 2),                // Filler
    text(132, 320),                // Description
    digits(452, 8),                // Fiscal Station Number
    text(460, 22),                 // Invoice Number
    text(482, 30),                 // JAS Number
    text(512, 20),                 // Job Number
    text(532, 320),                // Miscellaneous Transaction Information
    text(852, 17).required(),      // Obligating Document Number
    letter(869, b"FP"),            // Pay Flag
    text(870, 22),                 // Purchase Order Number
    digits(892, 14),               // Quantity
    symbol(906),                   // Receiver Treasury Account Symbol
    text(933, 9),                  // Receiver DUNS Number
    text(942, 4),                  // Receiver DUNS+4 Number
    text(946, 15),                 // Requisition Number
    symbol(961),                   // Sender Treasury Account Symbol
    text(988, 9),                  // Sender DUNS Number
    text(997, 4),                  // Sender DUNS+4 Number
    text(1001, 15),                // ACT Trace Number
    text(1016, 2).found_in(Units), // Unit of Issue
    above_zero(1018, 14),          // Unit Price
    text(1032, 15),                // DOD Activity Address Code
    text(1047, 8),                 // Cross Reference Document Reference Number
    filler(1055, 2),               // Filler
];

static POST_SGL_HEADER: [Field; 7] = [
    letter(1, b"H").required(),                 // Record Type
    digits(2, 8).required().found_in(Agencies), // ALC
    text(10, 5).required(),                     // Original DO Symbol
    filler(15, 3),                              // Filler
    text(18, 8).required(),                     // Original Document Reference / Voucher Number
    filler(26, 11),                             // Filler
    set_id(&[b"840"]).required(),               // Transaction Set ID
];

static POST_SGL_DETAIL: [Field; 3] = [
    letter(1, b"D").required(), // Record Type
    digits(2, 6).required(),    // Original Line Item
    text(8, 255),               // SGL Comments
];

static POST_SGL_POSTING: [Field; 7] = [
    letter(1, b"E").required(),                 // Record Type
    letter(2, b"AE").required(),                // SGL Action Flag
    digits(3, 4).required().found_in(Accounts), // SGL Account Number
    filler(7, 1),                               // Filler
    letter(8, b"FN").required(),                // Federal / Non-Federal Flag
    digits(9, 14).required(),                   // SGL Amount
    letter(23, b"DC").required(),               // Debit / Credit Flag
];

#[cfg(test)]
mod tests {
    use super::*;

    #[test]
    fn fields_fill_their_records() {
        use Letter::*;
        use SetId::*;
        for set_id in [
            Payment,
            Collection,
            ReceiverAdjustment,
            SenderAdjustment,
            ZeroDollar,
            PostSgl,
        ] {
            for layout in [Header, Detail, Posting]
                .into_iter()
                .filter_map(|l| layout(set_id, l))
            {
                let end = layout.fields.iter().fold(1, |column, field| {
                    assert_eq!(field.span.column, column);
                    column + field.span.length
                });
                assert_eq!(end, layout.length + 1);
            }
        }
    }
}
