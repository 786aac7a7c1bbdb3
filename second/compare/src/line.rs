//! Text by its form and its numbers.

/// A line with `#` for each of its numbers, and the numbers.
pub struct Line {
    pub form: String,
    pub numbers: Vec<u64>,
}

impl Line {
    pub fn of(text: &str) -> Option<Line> {
        let digits: Vec<&str> =
            text.split(|c: char| !c.is_ascii_digit()).filter(|digits| !digits.is_empty()).collect();
        let numbers: Vec<u64> =
            digits.iter().map(|digits| digits.parse().ok()).collect::<Option<_>>()?;
        // No leading zeros.
        if numbers.iter().zip(&digits).any(|(number, digits)| number.to_string() != **digits) {
            return None;
        }
        let mut form = String::new();
        for c in text.chars() {
            match c {
                '0'..='9' if form.ends_with('#') => {}
                '0'..='9' => form.push('#'),
                other => form.push(other),
            }
        }
        Some(Line { form, numbers })
    }
}
