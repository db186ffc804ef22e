//! RULES 1: words from 0 to p − 1, held in a u64 so that a product never overflows.

pub const P: u64 = 2_013_265_921;

pub fn add(a: u64, b: u64) -> u64 {
    (a + b) % P
}

pub fn sub(a: u64, b: u64) -> u64 {
    (a + P - b) % P
}

pub fn mul(a: u64, b: u64) -> u64 {
    a * b % P
}

fn power(base: u64, mut exponent: u64) -> u64 {
    let (mut result, mut square) = (1, base);
    while exponent > 0 {
        if exponent % 2 == 1 {
            result = mul(result, square);
        }
        square = mul(square, square);
        exponent /= 2;
    }
    result
}

/// By Fermat: a^(p−1) = 1, so a^(p−2) is the inverse. 0 has none and gives 0.
pub fn inverse(a: u64) -> u64 {
    power(a, P - 2)
}

/// A word that is a field word at all.
pub fn is_field_word(word: u32) -> bool {
    u64::from(word) < P
}

#[cfg(test)]
mod tests {
    use super::*;

    #[test]
    fn p_is_the_papers_prime() {
        assert_eq!(P, 15 * (1 << 27) + 1);
        assert!((2..).take_while(|d| d * d <= P).all(|d| P % d != 0));
    }

    #[test]
    fn every_row_number_has_its_inverse() {
        for a in (1..=256).chain([P - 1, P - 256]) {
            assert_eq!(mul(a, inverse(a)), 1);
        }
    }

    #[test]
    fn minus_one_is_2013265920() {
        assert_eq!(sub(0, 1), 2_013_265_920);
        assert_eq!(mul(P - 1, P - 1), 1);
        assert_eq!(add(P - 1, 1), 0);
    }
}
