//! Numbers for people.

/// A number with its thousands apart.
///
/// ```
/// assert_eq!(spatecanter::text::grouped(1_048_576), "1,048,576");
/// ```
pub fn grouped(number: usize) -> String {
    let digits = number.to_string();
    let mut text = String::new();
    for (index, digit) in digits.chars().enumerate() {
        if index > 0 && (digits.len() - index).is_multiple_of(3) {
            text.push(',');
        }
        text.push(digit);
    }
    text
}

/// So many of a thing.
///
/// ```
/// use spatecanter::text::counted;
///
/// assert_eq!(counted(1, "cut"), "1 cut");
/// assert_eq!(counted(2_628, "character"), "2,628 characters");
/// ```
pub fn counted(number: usize, thing: &str) -> String {
    let plural = if number == 1 { "" } else { "s" };
    format!("{} {thing}{plural}", grouped(number))
}
