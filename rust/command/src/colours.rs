//! The colours of a picture: states that stay apart, and texts that can be read on what lies behind them.

/// One colour a state. They stay apart for readers with each kind of colour blindness, and stand out from white and from the ink;
/// the test below measures it.
const STATES: [&str; 8] = ["#582a9b", "#fd3f0b", "#0fa771", "#920105", "#b033fd", "#205c53", "#9b8fb0", "#2d0034"];

/// Frames, changes and steps.
pub const INK: &str = "#222222";
/// Readings.
pub const DOT: &str = "#555555";
/// Texts on white and on the shades of labels.
pub const TEXT: &str = "#000000";
/// The line below the title.
pub const SMALL_TEXT: &str = "#444444";
/// The windows of labels: their rims, and their shades behind the readings. Those of no change, of a number of changes, of one up and of one down.
pub const LABELS: [(&str, &str); 4] = [
    ("#7b8794", "#dce0e3"),
    ("#b08d00", "#faeaa6"),
    ("#2f77b8", "#bcdcff"),
    ("#b9543c", "#ffd0c0"),
];

pub fn of_state(state: u8) -> &'static str {
    STATES[usize::from(state) % STATES.len()]
}

/// Black or white, whichever reads better on a colour.
pub fn text_on(colour: &str) -> &'static str {
    if contrast("#000000", colour) >= contrast("#ffffff", colour) {
        "#000000"
    } else {
        "#ffffff"
    }
}

/// The contrast ratio of the Web Content Accessibility Guidelines: 1 for equal colours, 21 for black on white.
fn contrast(a: &str, b: &str) -> f64 {
    let luminance = |colour: &str| {
        let [red, green, blue] = linear(colour);
        0.2126 * red + 0.7152 * green + 0.0722 * blue
    };
    let (a, b) = (luminance(a), luminance(b));
    (a.max(b) + 0.05) / (a.min(b) + 0.05)
}

/// Red, green and blue of a colour `#rrggbb`, from 0 to 1 and in proportion to light.
fn linear(colour: &str) -> [f64; 3] {
    [1, 3, 5].map(|at| {
        let digits = colour.get(at..at + 2).unwrap_or("00");
        let value = f64::from(u8::from_str_radix(digits, 16).unwrap_or(0)) / 255.0;
        match value {
            _ if value <= 0.04045 => value / 12.92,
            _ => ((value + 0.055) / 1.055).powf(2.4),
        }
    })
}

#[cfg(test)]
mod tests {
    use super::*;

    type Matrix = [[f64; 3]; 3];

    /// Normal vision, protanopia, deuteranopia and tritanopia: Machado, Oliveira and Fernandes 2009, severity 1.0, for linear light.
    const VISIONS: [(&str, Matrix); 4] = [
        ("normal", [[1.0, 0.0, 0.0], [0.0, 1.0, 0.0], [0.0, 0.0, 1.0]]),
        (
            "protanopia",
            [
                [0.152286, 1.052583, -0.204868],
                [0.114503, 0.786281, 0.099216],
                [-0.003882, -0.048116, 1.051998],
            ],
        ),
        (
            "deuteranopia",
            [
                [0.367322, 0.860646, -0.227968],
                [0.280085, 0.672501, 0.047413],
                [-0.011820, 0.042940, 0.968881],
            ],
        ),
        (
            "tritanopia",
            [
                [1.255528, -0.076749, -0.178779],
                [-0.078411, 0.930809, 0.147602],
                [0.004733, 0.691367, 0.303900],
            ],
        ),
    ];

    /// From linear sRGB to CIE XYZ, and the white of D65.
    const XYZ: Matrix = [
        [0.4124564, 0.3575761, 0.1804375],
        [0.2126729, 0.7151522, 0.0721750],
        [0.0193339, 0.1191920, 0.9503041],
    ];
    const WHITE: [f64; 3] = [0.95047, 1.0, 1.08883];

    fn times(matrix: &Matrix, vector: [f64; 3]) -> [f64; 3] {
        matrix.map(|row| row.iter().zip(vector).map(|(a, b)| a * b).sum())
    }

    /// CIELAB of a colour as a vision sees it.
    fn lab(colour: &str, vision: &Matrix) -> [f64; 3] {
        let seen = times(vision, linear(colour)).map(|part| part.clamp(0.0, 1.0));
        let xyz = times(&XYZ, seen);
        let [x, y, z] = [0, 1, 2].map(|at| {
            let part: f64 = xyz[at] / WHITE[at];
            if part > 216.0 / 24389.0 {
                part.cbrt()
            } else {
                (24389.0 / 27.0 * part + 16.0) / 116.0
            }
        });
        [116.0 * y - 16.0, 500.0 * (x - y), 200.0 * (y - z)]
    }

    /// CIE76.
    fn distance(a: &str, b: &str, vision: &Matrix) -> f64 {
        let (a, b) = (lab(a, vision), lab(b, vision));
        (0..3).map(|at| (a[at] - b[at]).powi(2)).sum::<f64>().sqrt()
    }

    /// The least distance of two colours of a list, and where it is.
    fn nearest(colours: &[&str]) -> (f64, String) {
        let mut least = (f64::INFINITY, String::new());
        for (name, vision) in &VISIONS {
            for (index, a) in colours.iter().enumerate() {
                for b in &colours[..index] {
                    let found = distance(a, b, vision);
                    if found < least.0 {
                        least = (found, format!("{a} and {b}, {name}: {found:.1}"));
                    }
                }
            }
        }
        least
    }

    fn determinant([a, b, c]: Matrix) -> f64 {
        a[0] * (b[1] * c[2] - b[2] * c[1]) - a[1] * (b[0] * c[2] - b[2] * c[0]) + a[2] * (b[0] * c[1] - b[1] * c[0])
    }

    /// The measures themselves, by what is known of them: the Lab of red and blue and ratios that are often quoted. Every vision leaves grey as
    /// it is, and the two that lack red or green keep only two of three dimensions.
    #[test]
    fn measures() {
        let close = |a: [f64; 3], b: [f64; 3]| a.iter().zip(b).all(|(a, b)| (a - b).abs() < 0.05);
        assert!(close(lab("#ff0000", &VISIONS[0].1), [53.24, 80.09, 67.20]));
        assert!(close(lab("#0000ff", &VISIONS[0].1), [32.30, 79.19, -107.86]));
        assert!((contrast("#000000", "#ffffff") - 21.0).abs() < 1e-9);
        assert!((contrast("#777777", "#ffffff") - 4.48).abs() < 0.005);
        for (name, vision) in &VISIONS {
            assert!(vision.iter().all(|row| (row.iter().sum::<f64>() - 1.0).abs() < 1e-5), "{name}");
        }
        assert!(determinant(VISIONS[1].1).abs() < 1e-5 && determinant(VISIONS[2].1).abs() < 1e-5);
    }

    #[test]
    fn states_stay_apart() {
        let (least, where_least) = nearest(&STATES);
        assert!(least >= 29.5, "{where_least}");
        // A test that could not tell a bad palette would be worthless: the one that stood here before has a pair at less than 10.
        let before = ["#0072b2", "#d55e00", "#009e73", "#b0579a", "#b98500", "#3a9bd9", "#5d4ba5", "#7a4b2a"];
        assert!(nearest(&before).0 < 10.0, "{}", nearest(&before).1);
    }

    #[test]
    fn states_stand_out_from_white_and_ink() {
        for colour in STATES {
            assert!(contrast(colour, "#ffffff") >= 3.0, "{colour}");
            for (name, vision) in &VISIONS {
                assert!(distance(colour, INK, vision) >= 20.0, "{colour}, {name}");
            }
        }
    }

    #[test]
    fn labels_stay_apart() {
        let shades = LABELS.map(|(_, shade)| shade);
        let (least, where_least) = nearest(&[&shades[..], &["#ffffff"]].concat());
        assert!(least >= 10.0, "{where_least}");
        for (rim, shade) in LABELS {
            assert!(contrast(rim, "#ffffff") >= 3.0 && contrast(rim, shade) >= 2.0, "{rim}");
            // What is drawn over a window: levels, readings and changes.
            for colour in STATES.into_iter().chain([DOT, INK]) {
                assert!(contrast(colour, shade) >= 2.0, "{colour} on {shade}");
            }
        }
    }

    /// 4.5 is what the guidelines ask of texts of this size.
    #[test]
    fn texts_can_be_read() {
        let mut texts = vec![(TEXT, "#ffffff"), (SMALL_TEXT, "#ffffff")];
        texts.extend(LABELS.map(|(_, shade)| (TEXT, shade)));
        texts.extend(STATES.map(|colour| (text_on(colour), colour)));
        for (text, behind) in texts {
            assert!(contrast(text, behind) >= 4.5, "{text} on {behind}");
        }
        assert_eq!((text_on("#ffffff"), text_on("#000000")), ("#000000", "#ffffff"));
    }
}
