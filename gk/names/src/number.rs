//! Numbers as people write them: thousands apart.

/// Numbers from here on are shown with their thousands apart; shorter ones are read at a glance.
const LONG: u64 = 10_000;

/// A number with a comma before each group of three digits.
pub fn grouped(number: u64) -> String {
    let digits = number.to_string();
    let mut text = String::new();
    for (index, digit) in digits.chars().enumerate() {
        if index > 0 && (digits.len() - index) % 3 == 0 {
            text.push(',');
        }
        text.push(digit);
    }
    text
}

/// A number as it stands in a sentence: from 10,000 on with its thousands apart.
pub fn shown(number: u64) -> String {
    match number < LONG {
        true => number.to_string(),
        false => grouped(number),
    }
}

/// The number of a text in decimal digits, plain or with its thousands apart; none where it is too large, or where a
/// comma stands elsewhere.
pub fn of_text(text: &str) -> Option<u64> {
    let digits = text.replace(',', "");
    let is_decimal = digits.bytes().all(|byte| byte.is_ascii_digit());
    let number = digits.parse().ok().filter(|_| is_decimal)?;
    (digits == text || grouped(number) == text).then_some(number)
}

#[cfg(test)]
mod tests {
    use super::*;

    #[test]
    fn thousands_stand_apart() {
        assert_eq!(
            [0, 999, 1000, 54321, 1_234_567].map(grouped),
            ["0", "999", "1,000", "54,321", "1,234,567"]
        );
        assert_eq!(grouped(u64::MAX), "18,446,744,073,709,551,615");
        assert_eq!([0, 63, 9_999, 10_000].map(shown), ["0", "63", "9999", "10,000"]);
    }

    #[test]
    fn a_number_is_read_as_it_is_written() {
        for number in [0, 7, 999, 1_000, 10_000, 4_294_967_296, u64::MAX] {
            assert_eq!(of_text(&number.to_string()), Some(number));
            assert_eq!(of_text(&grouped(number)), Some(number));
        }
        assert_eq!(of_text("007"), Some(7));
        for text in
            ["", ",", "1,", "1,2", "12,34", "1234,567", "0,001", ",001", "1,,000", "+1", "1_000", "x"]
        {
            assert_eq!(of_text(text), None, "{text}");
        }
        assert_eq!(of_text("18446744073709551616"), None);
        assert_eq!(of_text("18,446,744,073,709,551,616"), None);
    }
}
