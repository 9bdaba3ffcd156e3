//! The keywords of the text form and what each stands for.

use super::amount;

/// What a keyword stands for.
pub struct Form {
    pub keyword: &'static str,
    pub kind: u32,
    pub marks: &'static [(&'static str, u32)],
    pub fields: &'static [Field],
    pub amounts: &'static [&'static str],
    pub list: Option<List>,
}

/// Amounts behind the others, as many as are written: name=9,10,12. None where
/// it is left out. A field of the payload has their count.
pub struct List {
    pub name: &'static str,
    pub low: u32,
    pub width: u32,
}

/// A payload field: a number, or one of the names counted from 0.
pub struct Field {
    pub name: &'static str,
    pub low: u32,
    width: u32,
    names: &'static [&'static str],
    /// Added to what is written.
    offset: u32,
    pub left_out: u32,
}

const fn field(name: &'static str, low: u32, width: u32) -> Field {
    Field {
        name,
        low,
        width,
        names: &[],
        offset: 0,
        left_out: 0,
    }
}

const TRADE_CLASSES: &[&str] = &[
    "rates",
    "currency",
    "equity",
    "metals",
    "commodities",
    "credit",
    "floating",
];

const OFF_BALANCE_CLASSES: &[&str] = &[
    "short",
    "long",
    "cancellable",
    "substitute",
    "forward",
    "contingency",
    "note",
    "letter",
    "securitisation",
    "liquidity",
    "servicer",
];

pub const FORMS: &[Form] = &[
    Form {
        keyword: "protection",
        kind: 3,
        marks: &[],
        fields: &[field("entity", 0, 16), field("rank", 16, 4)],
        amounts: &["notional", "gain", "days"],
        list: None,
    },
    Form {
        keyword: "asset",
        kind: 2,
        marks: &[("fiduciary", 1)],
        fields: &[],
        amounts: &["carrying", "provision", "deducted"],
        list: None,
    },
    Form {
        keyword: "set",
        kind: 4,
        marks: &[
            ("netting", 1),
            ("unsegregated", 1 << 1),
            ("daily", 1 << 2),
            ("currency", 1 << 3),
            ("full", 1 << 4),
            // The four conditions on cash margin together.
            ("margin", 0b1_1110),
            ("exempt", 1 << 5),
        ],
        fields: &[],
        amounts: &["received", "paid", "posted"],
        list: None,
    },
    Form {
        keyword: "trade",
        kind: 5,
        marks: &[("resets", 1 << 11), ("qualifying", 1 << 12)],
        fields: &[
            Field {
                names: TRADE_CLASSES,
                ..field("class", 0, 3)
            },
            Field {
                left_out: 1,
                ..field("payments", 3, 8)
            },
        ],
        // A reset left out is the days remaining.
        amounts: &["value", "notional", "days", "reset"],
        list: None,
    },
    Form {
        keyword: "sold",
        kind: 6,
        marks: &[
            ("qualifying", 1 << 20),
            ("total-return", 1 << 21),
            ("close-out", 1 << 22),
        ],
        fields: &[field("entity", 0, 16), field("rank", 16, 4)],
        amounts: &["value", "notional", "loss", "days", "premiums"],
        list: None,
    },
    Form {
        keyword: "cover",
        kind: 7,
        marks: &[],
        fields: &[field("protection", 0, 12)],
        amounts: &["amount"],
        list: None,
    },
    Form {
        keyword: "basket",
        kind: 11,
        marks: &[],
        fields: &[Field {
            left_out: 1,
            ..field("nth", 0, 6)
        }],
        amounts: &["value", "notional"],
        list: Some(List {
            name: "grades",
            low: 6,
            width: 6,
        }),
    },
    Form {
        keyword: "financing",
        kind: 8,
        marks: &[("netting", 1), ("agent", 1 << 1), ("further", 1 << 2)],
        fields: &[],
        amounts: &[],
        list: None,
    },
    Form {
        keyword: "repo",
        kind: 9,
        marks: &[("settles-net", 1)],
        fields: &[],
        amounts: &[
            "gross",
            "securities",
            "receivable",
            "payable",
            "lent",
            "received",
            "days",
        ],
        list: None,
    },
    Form {
        keyword: "commitment",
        kind: 10,
        marks: &[],
        fields: &[
            Field {
                names: OFF_BALANCE_CLASSES,
                ..field("class", 0, 4)
            },
            Field {
                names: OFF_BALANCE_CLASSES,
                offset: 1,
                ..field("to", 4, 4)
            },
        ],
        amounts: &["notional"],
        list: None,
    },
];

impl Field {
    pub fn read(&self, text: &str) -> Result<u32, String> {
        let named = self.names.iter().position(|&name| name == text);
        let number = match named {
            Some(index) => index as u32,
            None => text.parse().map_err(|_| self.refuse(text))?,
        };
        match number.checked_add(self.offset) {
            Some(value) if value >> self.width == 0 => Ok(value),
            _ => Err(self.refuse(text)),
        }
    }

    fn refuse(&self, text: &str) -> String {
        format!("{text} is no {}", self.name)
    }
}

impl List {
    pub fn read(&self, text: &str) -> Result<Vec<u32>, String> {
        let name = self.name;
        let amounts: Result<Vec<u32>, String> = text.split(',').map(amount).collect();
        match amounts {
            Ok(amounts) if amounts.len() >> self.width == 0 => Ok(amounts),
            Ok(amounts) => Err(format!("{} {name} are too many to count", amounts.len())),
            Err(_) => Err(format!("{name}={text} is no list like {name}=9,10,12")),
        }
    }
}
