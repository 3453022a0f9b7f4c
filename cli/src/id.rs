//! Ids in words: 32 hexadecimal digits.

use edge_sst::Id;
use std::fmt;

/// An id that prints as 32 lower case digits.
pub struct Hex<'a>(pub &'a Id);

impl fmt::Display for Hex<'_> {
    fn fmt(&self, f: &mut fmt::Formatter<'_>) -> fmt::Result {
        write!(f, "{:032x}", u128::from_be_bytes(*self.0))
    }
}

/// The id of 32 digits, upper or lower case.
pub fn parse(text: &str) -> Option<Id> {
    let right = text.len() == 32 && text.bytes().all(|byte| byte.is_ascii_hexdigit());
    let number = u128::from_str_radix(text, 16).ok()?;
    right.then(|| number.to_be_bytes())
}

#[cfg(test)]
mod tests {
    use super::*;

    #[test]
    fn ids_are_32_digits() {
        let text = "000102030405060708090a0b0c0d0eff";
        let id = parse(text).unwrap();
        assert_eq!((id[1], id[15]), (1, 255));
        assert_eq!(Hex(&id).to_string(), text);
        assert_eq!(parse(&text.to_uppercase()), Some(id));
        for wrong in ["", &text[1..], &format!("+{}", &text[1..]), &"0".repeat(33)] {
            assert_eq!(parse(wrong), None, "{wrong}");
        }
        assert_eq!(parse(&"é".repeat(16)), None);
    }
}
