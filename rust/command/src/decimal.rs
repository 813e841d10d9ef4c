//! A written number as a reading: exact, without floating point.
use crate::failure::quoted;

pub const MAX_SCALE: u32 = 1_000_000;

/// Larger exponents count as this one: with it a number is too large, or has too many decimals, however many digits a file can hold.
const FAR: i64 = 1 << 40;

/// Readings times `scale`; without it whole numbers are expected.
#[derive(Debug, Clone, Copy, Default, PartialEq, Eq)]
pub struct Units {
    pub scale: Option<u32>,
    /// Decimals stand after a comma, no longer after a point, which may then part thousands.
    pub decimal_comma: bool,
}

impl Units {
    fn mark(self) -> char {
        if self.decimal_comma {
            ','
        } else {
            '.'
        }
    }
}

pub fn reading(word: &str, units: Units) -> Result<i16, String> {
    match units.scale {
        None => word.parse().map_err(|_| {
            let advice = advice(word, units);
            format!("expected a reading, a whole number from -32768 to 32767, found {}{advice}", quoted(word))
        }),
        Some(scale) => scaled(word, scale, units),
    }
}

/// Whether a word is a number in any of the forms that can be read, or be advised on.
pub fn is_number(word: &str) -> bool {
    ['.', ','].iter().any(|mark| Decimal::parse(word, *mark).is_some())
}

pub fn is_digits(word: &str) -> bool {
    !word.is_empty() && word.bytes().all(|byte| byte.is_ascii_digit())
}

fn scaled(word: &str, scale: u32, units: Units) -> Result<i16, String> {
    let Some(number) = Decimal::parse(word, units.mark()) else {
        let (mark, advice) = (units.mark(), advice(word, units));
        return Err(format!("expected a reading, a number such as 31{mark}5, found {}{advice}", quoted(word)));
    };
    let beyond = if number.negative { "below -32768" } else { "above 32767" };
    let quoted = quoted(word);
    let product = format!("{} times {scale} is", quoted.trim_matches('\''));
    match number.times(scale) {
        Product::Whole(value) => i16::try_from(value).map_err(|_| format!("{product} {value}, {beyond}")),
        Product::Huge => Err(format!("{product} {beyond}")),
        Product::Fraction => {
            let better = number
                .fitting_scale()
                .map(|scale| format!("; 'scale {scale}' would do{}", scaled_plan(scale)));
            Err(format!("{product} not whole{}", better.unwrap_or_default()))
        }
    }
}

/// What to do so that a word that is no reading as it stands can be read.
fn advice(word: &str, units: Units) -> String {
    let parts: Vec<&str> = word.split_whitespace().collect();
    if parts.len() > 1 && parts.iter().all(|part| is_number(part)) {
        return "; blanks do not separate readings: write one number a line".to_string();
    }
    if word.starts_with(['\u{2212}', '\u{2013}']) {
        return "; write the minus sign as -".to_string();
    }
    let has_comma = word.contains(',');
    let mark = if has_comma { ',' } else { '.' };
    let Some(number) = Decimal::parse(word, mark).filter(|_| word.contains(['.', ',', 'e', 'E'])) else {
        return String::new();
    };
    match (units.decimal_comma, number.decimals()) {
        (true, _) if !has_comma => "; with 'decimal comma' a point is no decimal sign".to_string(),
        (false, decimals) if has_comma => {
            format!(
                "; if its comma is a decimal sign, {}; if it parts thousands, leave it out",
                comma_advice(word, decimals, units)
            )
        }
        (_, decimals) => match number.scale_with(decimals) {
            None => "; no power of ten as 'scale' makes it one".to_string(),
            Some(scale) => format!("; for decimals add the line 'scale {scale}' to the plan text{}", scaled_plan(scale)),
        },
    }
}

/// What else a scale asks of a plan text: costs are squares, so penalties grow with its square.
fn scaled_plan(scale: u32) -> String {
    match scale {
        1 => String::new(),
        _ => format!(
            " (readings are then times {scale}, so grid and gaps have to be given times {scale}, penalties times {})",
            u64::from(scale).pow(2)
        ),
    }
}

/// The lines that a plan text needs for a number with a decimal comma, in a record with so many decimals.
pub fn comma_advice(word: &str, decimals: usize, units: Units) -> String {
    let number = Decimal::parse(word, ',');
    let comma = if units.decimal_comma { "" } else { "the line 'decimal comma' and " };
    match (number.and_then(|number| number.scale_with(decimals)), units.scale) {
        (None, _) => "no power of ten as 'scale' makes a reading of it, so round the record first".to_string(),
        (Some(scale), Some(given)) if given % scale == 0 => "add the line 'decimal comma' to the plan text".to_string(),
        (Some(scale), Some(given)) => format!(
            "add {comma}'scale {scale}' in place of 'scale {given}' to the plan text{}",
            scaled_plan(scale)
        ),
        (Some(scale), None) if comma.is_empty() => format!("add the line 'scale {scale}' to the plan text{}", scaled_plan(scale)),
        (Some(scale), None) => format!("add the lines 'decimal comma' and 'scale {scale}' to the plan text{}", scaled_plan(scale)),
    }
}

/// A number as it is written: digits without zeros at either end, times a power of ten. Zero has no digits.
struct Decimal {
    negative: bool,
    digits: String,
    exponent: i64,
}

enum Product {
    Whole(i128),
    Fraction,
    /// Above 10 to the 10th, whole or not.
    Huge,
}

impl Decimal {
    /// Sign, digits, a fraction after the mark and an exponent; only digits have to be there.
    fn parse(word: &str, mark: char) -> Option<Decimal> {
        let unsigned = word.strip_prefix(['+', '-']).unwrap_or(word);
        let (number, exponent) = match unsigned.split_once(['e', 'E']) {
            Some((number, exponent)) => (number, exponent_of(exponent)?),
            None => (unsigned, 0),
        };
        let (whole, fraction) = number.split_once(mark).unwrap_or((number, ""));
        // Of the digits before and after the mark one part may be missing.
        let is_part = |part: &str| part.is_empty() || is_digits(part);
        if !is_part(whole) || !is_part(fraction) || (whole.is_empty() && fraction.is_empty()) {
            return None;
        }
        let all = format!("{whole}{fraction}");
        let kept = all.trim_end_matches('0');
        let exponent = exponent - fraction.len() as i64 + (all.len() - kept.len()) as i64;
        Some(Decimal {
            negative: word.starts_with('-'),
            digits: kept.trim_start_matches('0').to_string(),
            exponent: if kept.is_empty() { 0 } else { exponent },
        })
    }

    fn times(&self, scale: u32) -> Product {
        if self.digits.is_empty() {
            return Product::Whole(0);
        }
        // The digits are not a multiple of ten, so the scale has to hold all twos or all fives of the power of ten below the fraction line. No
        // scale holds 20 of them.
        if self.exponent < -19 {
            return Product::Fraction;
        }
        // 30 digits times a scale fit into 128 bits; more than 30, of which at most 19 are decimals, are too large.
        if self.digits.len() as i64 + self.exponent.max(0) > 30 {
            return Product::Huge;
        }
        let power = 10i128.pow(self.exponent.unsigned_abs() as u32);
        let product = self.digits.bytes().fold(0, |value, digit| value * 10 + i128::from(digit - b'0')) * i128::from(scale);
        let signed = if self.negative { -product } else { product };
        match self.exponent {
            0.. => Product::Whole(signed * power),
            _ if signed % power == 0 => Product::Whole(signed / power),
            _ => Product::Fraction,
        }
    }

    /// How many decimals it has.
    fn decimals(&self) -> usize {
        usize::try_from(-self.exponent.min(0)).unwrap_or(usize::MAX)
    }

    /// The power of ten for so many decimals, where it makes a reading of the number.
    fn scale_with(&self, decimals: usize) -> Option<u32> {
        let scale = 10u32.checked_pow(u32::try_from(decimals).ok()?).filter(|scale| *scale <= MAX_SCALE)?;
        match self.times(scale) {
            Product::Whole(value) => i16::try_from(value).ok().map(|_| scale),
            _ => None,
        }
    }

    fn fitting_scale(&self) -> Option<u32> {
        self.scale_with(self.decimals())
    }
}

fn exponent_of(word: &str) -> Option<i64> {
    let digits = word.strip_prefix(['+', '-']).unwrap_or(word);
    let value = is_digits(digits).then(|| digits.parse().unwrap_or(FAR).min(FAR))?;
    Some(if word.starts_with('-') { -value } else { value })
}

#[cfg(test)]
mod tests {
    use super::*;

    const WHOLE: Units = Units {
        scale: None,
        decimal_comma: false,
    };

    fn times(scale: u32) -> Units {
        Units { scale: Some(scale), ..WHOLE }
    }

    /// Every reading, as a whole number and with one or two decimals, written here from its digits.
    #[test]
    fn all_readings() {
        for value in i16::MIN..=i16::MAX {
            let (sign, digits) = (if value < 0 { "-" } else { "" }, i32::from(value).abs());
            let [tenths, hundredths] = [(10, 1), (100, 2)].map(|(part, places)| {
                let (whole, rest) = (digits / part, digits % part);
                format!("{sign}{whole}.{rest:0places$}")
            });
            for (word, units) in [
                (value.to_string(), WHOLE),
                (value.to_string(), times(1)),
                (format!("{value}.000e0"), times(1)),
                (tenths.clone(), times(10)),
                (tenths.clone() + "0", times(10)),
                (format!("{tenths}E+1"), times(1)),
                (hundredths.clone(), times(100)),
                (format!("{hundredths}e-3"), times(100_000)),
            ] {
                assert_eq!(reading(&word, units), Ok(value), "{word}");
            }
            let comma = Units {
                decimal_comma: true,
                ..times(100)
            };
            assert_eq!(reading(&hundredths.replace('.', ","), comma), Ok(value));
            assert_eq!(reading(&tenths, times(100)).ok(), value.checked_mul(10), "{tenths}");
            assert_eq!(
                reading(&hundredths, times(10)).ok(),
                (value % 10 == 0).then_some(value / 10),
                "{hundredths}"
            );
        }
    }

    /// The product worked out by long multiplication with the fraction line kept apart, over numbers of all shapes.
    #[test]
    fn against_fractions() {
        let mut seed = 7u64;
        let mut next = |below: u64| {
            seed = seed.wrapping_mul(6364136223846793005).wrapping_add(1442695040888963407);
            (seed >> 33) % below
        };
        let (mut good, mut bad) = (0, 0);
        for _ in 0..200_000 {
            let (whole, places) = (next(200) as i128, next(4) as u32);
            let (fraction, exponent) = (next(10u64.pow(places)) as i128, next(7) as i32 - 3);
            let scale = [1, 2, 4, 5, 8, 10, 25, 40, 100, 125, 1000, 1024, 999_999, 1_000_000][next(14) as usize];
            let word = match places {
                0 => format!("{whole}e{exponent}"),
                _ => format!("{whole}.{fraction:0width$}e{exponent}", width = places as usize),
            };
            let above = (whole * 10i128.pow(places) + fraction) * i128::from(scale) * 10i128.pow(exponent.max(0) as u32);
            let below = 10i128.pow(places + (-exponent).max(0) as u32);
            let due = if above % below == 0 { i16::try_from(above / below).ok() } else { None };
            assert_eq!(reading(&word, times(scale)).ok(), due, "{word} times {scale}");
            let negative = reading(&format!("-{word}"), times(scale)).ok();
            assert!(due.is_none() || negative == due.map(|value| -value), "-{word} times {scale}");
            *(if due.is_some() { &mut good } else { &mut bad }) += 1;
        }
        assert!(good > 20_000 && bad > 20_000, "{good} {bad}");
    }

    #[test]
    fn long_numbers() {
        let (zeros, nines) = ("0".repeat(500), "9".repeat(500));
        for (word, due) in [
            (format!("{zeros}31.5{zeros}"), Some(315)),
            (format!("31.5{zeros}1"), None),
            (format!("0.{zeros}"), Some(0)),
            (format!("0.{zeros}315e502"), Some(315)),
            (format!("315{zeros}e-501"), Some(315)),
            (format!("-{nines}"), None),
            (format!("{nines}.{nines}"), None),
            (format!("1e{nines}"), None),
            (format!("1e-{nines}"), None),
            (format!("0e{nines}"), Some(0)),
            (format!("3e{zeros}1"), Some(300)),
            ("-0.0".to_string(), Some(0)),
            (".5".to_string(), Some(5)),
            ("-5.".to_string(), Some(-50)),
            ("1.e2".to_string(), Some(1000)),
            ("+1e-1".to_string(), Some(1)),
            ("1e9223372036854775807".to_string(), None),
            ("1e-9223372036854775808".to_string(), None),
        ] {
            assert_eq!(reading(&word, times(10)).ok(), due, "{word}");
            assert!(reading(&word, WHOLE).is_err(), "{word}");
        }
        assert_eq!(reading(&format!("{zeros}31"), WHOLE), Ok(31));
    }

    #[test]
    fn no_numbers() {
        for word in [
            "", "-", "+", ".", "-.", ".e1", "e1", "1e", "1e+", "1e1.5", "--1", "1-", "1 2", "0x1F", "inf", "NaN", "1_000", "1.2.3", "\u{663}",
        ] {
            assert!(!is_number(word), "{word}");
            assert!(reading(word, WHOLE).is_err() && reading(word, times(10)).is_err(), "{word}");
        }
    }

    #[test]
    fn messages() {
        let comma = |scale| Units { scale, decimal_comma: true };
        for (word, units, words) in [
            ("31.5", WHOLE, "found '31.5'; for decimals add the line 'scale 10' to the plan text"),
            ("31.50", WHOLE, "'scale 10' "),
            ("31.0", WHOLE, "'scale 1' "),
            ("3e1", WHOLE, "'scale 1' "),
            ("0e-9", WHOLE, "'scale 1' "),
            ("3e-3", WHOLE, "'scale 1000' "),
            ("31,25", WHOLE, "the lines 'decimal comma' and 'scale 100' to the plan text"),
            ("31,5", comma(None), "the line 'scale 10' to the plan text"),
            ("31,5", times(10), "the line 'decimal comma' to the plan text"),
            ("31.5", comma(Some(10)), "'31.5'; with 'decimal comma' a point is no decimal sign"),
            ("31.5", comma(None), "'31.5'; with 'decimal comma' a point is no decimal sign"),
            ("31.55555", WHOLE, "no power of ten"),
            ("1e-7", WHOLE, "no power of ten"),
            ("31.55", times(10), "31.55 times 10 is not whole; 'scale 100' would do"),
            ("4000.5", times(10), "4000.5 times 10 is 40005, above 32767"),
            ("-4e3", times(10), "-4e3 times 10 is -40000, below -32768"),
        ] {
            let message = reading(word, units).expect_err(word);
            assert!(message.contains(words), "{message}");
        }
        for (word, units) in [("40000", WHOLE), ("x.5", WHOLE), ("", WHOLE), ("x", times(10))] {
            let message = reading(word, units).expect_err(word);
            assert!(message.ends_with(&format!("found '{word}'")), "{message}");
        }
        let message = reading("9000.25", times(2)).expect_err("not whole");
        assert_eq!(message, "9000.25 times 2 is not whole");
    }
}
