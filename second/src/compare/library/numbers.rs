//! An answer's numbers by name, so that a difference can be said.

use crate::differ::Difference;
use second::answers::{
    BookReadAnswer, BookWriteAnswer, DeliveryAnswer, GroupAnswer, Part, SpansAnswer, ValueAnswer,
};
use second::record::GroupRecord;

pub trait Numbers {
    /// In the header's order; a name ends in a space.
    fn numbers(&self) -> Vec<(String, u64)>;
}

/// The answer of a request on a group lent.
#[derive(PartialEq)]
pub struct Code(pub u32);

/// The judge's code × 2^32 + value.
#[derive(PartialEq)]
pub struct Judged(pub u64);

pub fn same<T: PartialEq + Numbers>(expected: &T, got: &T) -> Result<(), Difference> {
    if expected == got {
        return Ok(());
    }
    let (name, expected, got) = first_different(expected, got);
    let sort = match name.as_str() {
        "code " => format!("code {expected} | {got}"),
        _ => name.split('[').next().unwrap_or("").to_string(),
    };
    let said = format!("{name}expected {expected}, the gate answers {got}");
    Err(Difference { said, sort })
}

/// Name, expected and got of the first number in which two unequal answers differ.
pub fn first_different<T: Numbers>(expected: &T, got: &T) -> (String, u64, u64) {
    let different = expected.numbers().into_iter().zip(got.numbers()).find(|(a, b)| a.1 != b.1);
    let ((name, expected), (_, got)) = different.expect("unequal answers differ in a number");
    (name, expected, got)
}

fn named(numbers: &[(&str, u64)]) -> Vec<(String, u64)> {
    numbers.iter().map(|(name, number)| (format!("{name} "), *number)).collect()
}

impl Numbers for u8 {
    fn numbers(&self) -> Vec<(String, u64)> {
        vec![(String::new(), u64::from(*self))]
    }
}

impl Numbers for u32 {
    fn numbers(&self) -> Vec<(String, u64)> {
        vec![(String::new(), u64::from(*self))]
    }
}

impl Numbers for Code {
    fn numbers(&self) -> Vec<(String, u64)> {
        named(&[("code", u64::from(self.0))])
    }
}

impl Numbers for Judged {
    fn numbers(&self) -> Vec<(String, u64)> {
        named(&[("code", self.0 >> 32), ("value", self.0 & u64::from(u32::MAX))])
    }
}

impl Numbers for GroupRecord {
    fn numbers(&self) -> Vec<(String, u64)> {
        let mut all = named(&[
            ("number", u64::from(self.number)),
            ("closed", u64::from(self.closed)),
            ("members", self.members),
        ]);
        for (name, marks) in ["sj", "lj", "sl", "ll"].iter().zip(self.model_marks) {
            all.extend(named(&[(name, marks)]));
        }
        let [sa, la, sr, lr] = &self.sheet_marks;
        let sets: [(&str, &[u64]); 7] = [
            ("added", &self.added),
            ("liberal", &self.liberal),
            ("sa", sa),
            ("la", la),
            ("sr", sr),
            ("lr", lr),
            ("grants", &self.grants),
        ];
        for (name, words) in sets {
            let numbered = words.iter().enumerate();
            all.extend(numbered.map(|(place, word)| (format!("{name}[{place}] "), *word)));
        }
        all
    }
}

impl Numbers for GroupAnswer {
    fn numbers(&self) -> Vec<(String, u64)> {
        [named(&[("code", u64::from(self.code))]), self.group.numbers()].concat()
    }
}

impl Numbers for ValueAnswer {
    fn numbers(&self) -> Vec<(String, u64)> {
        named(&[("code", u64::from(self.code)), ("value", u64::from(self.value))])
    }
}

impl Numbers for BookReadAnswer {
    fn numbers(&self) -> Vec<(String, u64)> {
        let head = named(&[("code", u64::from(self.code)), ("place", u64::from(self.place))]);
        [head, self.group.numbers()].concat()
    }
}

impl Numbers for BookWriteAnswer {
    fn numbers(&self) -> Vec<(String, u64)> {
        let (code, place) = (u64::from(self.code), u64::from(self.place));
        named(&[("code", code), ("place", place), ("length", self.length as u64)])
    }
}

impl Numbers for DeliveryAnswer {
    fn numbers(&self) -> Vec<(String, u64)> {
        let (code, place) = (u64::from(self.code), u64::from(self.place));
        named(&[("code", code), ("place", place), ("length", u64::from(self.length))])
    }
}

impl Numbers for SpansAnswer {
    fn numbers(&self) -> Vec<(String, u64)> {
        let (code, place) = (u64::from(self.code), u64::from(self.place));
        named(&[("code", code), ("place", place), ("count", u64::from(self.count))])
    }
}

impl Numbers for Part {
    fn numbers(&self) -> Vec<(String, u64)> {
        let (first, count) = (self.first as u64, self.count as u64);
        named(&[("list", u64::from(self.list)), ("first", first), ("count", count)])
    }
}
