//! Document 01, "What comes back when it will not".

/// The proof that 7, 8 and 9 speak of.
#[derive(Clone, Copy, Debug, PartialEq, Eq)]
pub enum Which {
    First,
    Second,
    /// In a joint proof: 0 for its form, else 1 to 32.
    Place(u8),
}

#[derive(Clone, Copy, Debug, PartialEq, Eq)]
pub enum Refusal {
    BadImage,
    BadPosition,
    BadHeight,
    Full,
    NoRoom,
    TooDeep,
    BadProof(Which),
    WrongPosition(Which),
    WrongLabel(Which),
    NotNeighbours,
    LongMessage,
    BadMetadata,
    BadSet,
    Repeated,
    OutOfTime,
    WrongBlock,
}

impl Refusal {
    /// The number in document 01's table; 13 to 16 are document 02's.
    pub fn number(self) -> u8 {
        match self {
            Refusal::BadImage => 1,
            Refusal::BadPosition => 2,
            Refusal::BadHeight => 3,
            Refusal::Full => 4,
            Refusal::NoRoom => 5,
            Refusal::TooDeep => 6,
            Refusal::BadProof(_) => 7,
            Refusal::WrongPosition(_) => 8,
            Refusal::WrongLabel(_) => 9,
            Refusal::NotNeighbours => 10,
            Refusal::LongMessage => 11,
            Refusal::BadMetadata => 12,
            Refusal::BadSet => 13,
            Refusal::Repeated => 14,
            Refusal::OutOfTime => 15,
            Refusal::WrongBlock => 16,
        }
    }

    /// 7, 8 and 9 also say which proof: 1 the first, 2 the second, else 0; in
    /// a joint proof the place.
    pub fn which(self) -> u8 {
        match self {
            Refusal::BadProof(w) | Refusal::WrongPosition(w) | Refusal::WrongLabel(w) => match w {
                Which::First => 1,
                Which::Second => 2,
                Which::Place(place) => place,
            },
            _ => 0,
        }
    }
}
