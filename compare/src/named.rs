//! How an instant n/m is named in a text: "17", "17.5", "35/2" or "17 1/2".

use crate::generate::Random;

/// Digits, one or more.
fn number(text: &str) -> Option<u64> {
    let digits = text.bytes().all(|byte| byte.is_ascii_digit());
    digits.then(|| text.parse().ok())?
}

/// A whole number and n/m, where both of the fraction's numbers fit.
fn mixed(whole: u64, n: u64, m: u64) -> Option<(u64, u64)> {
    Some((whole.checked_mul(m)?.checked_add(n)?, m))
}

/// The instant that a text names, if it names one.
pub fn read(text: &str) -> Option<(u64, u64)> {
    if let Some((above, m)) = text.split_once('/') {
        let (whole, n) = above.split_once(' ').unwrap_or(("0", above));
        mixed(number(whole)?, number(n)?, number(m)?)
    } else if let Some((whole, places)) = text.split_once('.') {
        let m = 10u64.checked_pow(places.len() as u32)?;
        mixed(number(whole)?, number(places)?, m)
    } else {
        Some((number(text)?, 1))
    }
}

/// A text that names n/m: a decimal or a whole number where it can be one, or with zeros in front, in some of the cases.
pub fn written((n, m): (u64, u64), random: &mut Random) -> String {
    let zeros = "0".repeat(random.below(3) as usize);
    let places = m.checked_ilog10().unwrap_or(0);
    let decimal = places > 0 && m == 10u64.pow(places);
    match random.below(4) {
        0 if m == 1 => format!("{zeros}{n}"),
        1 if decimal => format!("{zeros}{}.{:02$}", n / m, n % m, places as usize),
        2 if m > 0 => format!("{} {zeros}{}/{m}", n / m, n % m),
        _ => format!("{n}/{zeros}{m}"),
    }
}

#[cfg(test)]
mod tests {
    use super::*;

    #[test]
    fn instants_are_read() {
        for (text, wanted) in [
            ("17", Some((17, 1))),
            ("17.5", Some((175, 10))),
            ("17.50", Some((1_750, 100))),
            ("35/2", Some((35, 2))),
            ("17 1/2", Some((35, 2))),
            ("007 3/2", Some((17, 2))),
            ("5/0", Some((5, 0))),
            ("18446744073709551615", Some((u64::MAX, 1))),
            ("18446744073709551616", None),
            ("9223372036854775808 0/2", None),
            ("", None),
            ("+1", None),
            ("-1", None),
            ("1,5", None),
            ("1.", None),
            (".5", None),
            ("1 2", None),
            ("1/2/3", None),
            ("1.5/2", None),
            ("1 2 3/4", None),
        ] {
            assert_eq!(read(text), wanted, "{text}");
        }
    }

    #[test]
    fn what_is_written_is_read() {
        let mut random = Random::new(1);
        for _ in 0..20_000 {
            let n = random.draw() >> random.below(64);
            let m = match random.below(3) {
                0 => 10u64.pow(random.below(10) as u32),
                _ => random.draw() >> random.below(64),
            };
            let text = written((n, m), &mut random);
            assert_eq!(read(&text), Some((n, m)), "{text}");
        }
    }
}
