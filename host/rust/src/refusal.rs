//! RULES 6. The numbers are written as the table prints them.

#[derive(Clone, Copy, Debug, PartialEq, Eq)]
pub struct Refusal {
    pub number: u32,
    pub place: usize,
}

/// `Ok` is number 0 with place 0.
pub type Verdict<T = ()> = Result<T, Refusal>;

pub fn refuse<T>(number: u32, place: usize) -> Verdict<T> {
    Err(Refusal { number, place })
}

/// Refuse unless `good`: the table's order is then the order of the lines.
pub fn need(good: bool, number: u32, place: usize) -> Verdict {
    if good {
        Ok(())
    } else {
        refuse(number, place)
    }
}

/// Number and place of any verdict.
pub fn number_and_place<T>(verdict: &Verdict<T>) -> (u32, usize) {
    match verdict {
        Ok(_) => (0, 0),
        Err(refusal) => (refusal.number, refusal.place),
    }
}

/// The one integer of an exported function: 256 times the place plus the number.
pub fn integer<T>(verdict: &Verdict<T>) -> u64 {
    let (number, place) = number_and_place(verdict);
    256 * place as u64 + u64::from(number)
}
