//! Refusals, by the numbers of RULES.md 11.1.

#[derive(Clone, Copy, Debug, PartialEq, Eq)]
pub struct Refusal {
    pub number: u32,
    /// The record's place or the sheet's number, where the rules name one.
    pub place: Option<u32>,
}

pub fn refused<T>(number: u32) -> Result<T, Refusal> {
    Err(Refusal { number, place: None })
}

pub fn refused_at<T>(number: u32, place: usize) -> Result<T, Refusal> {
    Err(Refusal { number, place: Some(place as u32) })
}

impl std::fmt::Display for Refusal {
    fn fmt(&self, f: &mut std::fmt::Formatter) -> std::fmt::Result {
        match self.place {
            Some(place) => write!(f, "refused {} at {place}", self.number),
            None => write!(f, "refused {}", self.number),
        }
    }
}
