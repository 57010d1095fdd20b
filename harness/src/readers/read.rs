//! The three ways in which a conditional read answers.

#[derive(Clone, Copy)]
pub enum Read {
    End,
    Taken(u8),
    /// With the byte seen.
    Declined(u8),
}

impl Read {
    /// Of the crate's read, which has none for the end and for a declined byte
    /// alike, and its peek from the same state, which tells them apart.
    pub fn of_crate(taken: Option<u8>, peeked: Option<u8>) -> Self {
        assert!(
            taken.is_none() || taken == peeked,
            "the crate reads the byte that it peeks"
        );
        match (taken, peeked) {
            (Some(byte), _) => Self::Taken(byte),
            (None, Some(byte)) => Self::Declined(byte),
            (None, None) => Self::End,
        }
    }

    /// All that the crate's read tells.
    pub fn taken(self) -> Option<u8> {
        match self {
            Self::Taken(byte) => Some(byte),
            Self::End | Self::Declined(_) => None,
        }
    }
}
