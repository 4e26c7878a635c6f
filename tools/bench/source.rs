//! Rust-like sources of any size: rules as a risk assessment has them, with constants, functions,
//! comments, strings and numbers. The same size and choice give the same bytes.

/// A fixed run of pseudo-random numbers.
struct Chance(u64);

impl Chance {
    fn below(&mut self, limit: usize) -> usize {
        self.0 = self.0.wrapping_mul(6364136223846793005).wrapping_add(1442695040888963407);
        (self.0 >> 33) as usize % limit
    }

    fn pick(&mut self, items: &[&'static str]) -> &'static str {
        items[self.below(items.len())]
    }
}

#[rustfmt::skip]
const NAMES: &[&str] = &[
    "limit", "dose", "exposure", "sample", "rate", "level", "sheet", "hazard", "class", "threshold", "room", "vent",
    "mass", "volume", "ppm", "hours", "weight", "solvent", "mixture", "value", "max_level", "min_dose", "half_life",
    "flash_point", "is_toxic", "i", "n", "x", "total_exposure_hours", "result", "bound", "self_heating",
];
#[rustfmt::skip]
const NAMES_OUTSIDE: &[&str] = &[
    "größe", "dosis_höchst", "température", "débit", "濃度", "暴露時間", "порог", "доза", "δόση", "όριο", "nível", "ölçüm",
];
#[rustfmt::skip]
const TYPES: &[&str] = &["u8", "u32", "u64", "usize", "f64", "bool", "Dose", "Level", "Option<Level>", "&'a str", "Vec<Dose>"];
#[rustfmt::skip]
const WORDS: &[&str] = &[
    "the", "limit", "was", "revised", "after", "a", "measurement", "see", "sheet", "for", "rooms", "without", "windows",
    "do", "not", "mix", "with", "water", "above", "this", "value", "ventilation", "is", "required", "and", "logged",
];
#[rustfmt::skip]
const WORDS_OUTSIDE: &[&str] = &[
    "für", "Räume", "ohne", "Lüftung", "après", "mesuré", "à", "été", "濃度は", "測定済み", "換気", "порог", "превышен", "μg/m³",
    "≤", "→", "°C", "✓", "⚠", "🧪", "😷",
];
#[rustfmt::skip]
const NUMBERS: &[&str] = &["0", "1", "2", "10", "25", "100", "1_000", "0xFF", "0b1010", "3.5", "0.25", "1e-3", "12_u8", "48.0", "7usize"];
#[rustfmt::skip]
const OPERATORS: &[&str] = &["+", "-", "*", "/", "%", "<", ">", "<=", ">=", "==", "!=", "&&", "||", "&", "|"];

struct Writer {
    chance: Chance,
    outside: bool,
    line: String,
}

impl Writer {
    fn put(&mut self, text: &str) {
        self.line.push_str(text);
    }

    fn name(&mut self) {
        let outside = self.outside && self.chance.below(8) == 0;
        let name = self.chance.pick(if outside { NAMES_OUTSIDE } else { NAMES });
        self.put(name);
    }

    fn words(&mut self, most: usize) {
        for at in 0..3 + self.chance.below(most) {
            if at > 0 {
                self.put(" ");
            }
            let outside = self.outside && self.chance.below(3) == 0;
            let word = self.chance.pick(if outside { WORDS_OUTSIDE } else { WORDS });
            self.put(word);
        }
    }

    fn number(&mut self) {
        let number = self.chance.pick(NUMBERS);
        self.put(number);
    }

    fn value(&mut self, depth: usize) {
        match self.chance.below(if depth == 0 { 4 } else { 9 }) {
            0 | 1 => self.name(),
            2 | 3 => self.number(),
            4 => {
                self.name();
                self.put("(");
                self.value(depth - 1);
                self.put(", ");
                self.value(depth - 1);
                self.put(")");
            }
            5 => {
                self.name();
                self.put(".");
                self.name();
                self.put("()");
            }
            6 => {
                self.put("\"");
                self.words(3);
                let end = self.chance.pick(&["\"", " {}\"", "\\n\"", " \\\"a\\\"\""]);
                self.put(end);
            }
            7 => {
                let literal = self.chance.pick(&[
                    "'a'",
                    "b'\\n'",
                    "'\\u{b5}'",
                    "r#\"ppm \"x\"\"#",
                    "b\"raw\"",
                    "true",
                    "None",
                ]);
                self.put(literal);
            }
            _ => {
                self.value(depth - 1);
                let operator = self.chance.pick(OPERATORS);
                self.put(" ");
                self.put(operator);
                self.put(" ");
                self.value(depth - 1);
            }
        }
    }

    fn statement(&mut self, indent: &str) {
        self.put(indent);
        match self.chance.below(8) {
            0 => {
                self.put("// ");
                self.words(10);
            }
            1 => {
                self.put("if ");
                self.value(2);
                self.put(" { return ");
                self.value(1);
                self.put("; }");
            }
            2 => {
                self.put("for ");
                self.name();
                self.put(" in 0..");
                self.number();
                self.put(" { ");
                self.name();
                self.put(" += ");
                self.value(1);
                self.put("; }");
            }
            3 => {
                self.put("assert!(");
                self.value(2);
                self.put(", \"");
                self.words(4);
                self.put("\");");
            }
            _ => {
                let begin = self.chance.pick(&["let ", "let mut ", ""]);
                self.put(begin);
                self.name();
                self.put(" = ");
                self.value(2);
                self.put(";");
                if self.chance.below(4) == 0 {
                    self.put(" // ");
                    self.words(5);
                }
            }
        }
        self.put("\n");
    }

    fn item(&mut self) {
        match self.chance.below(5) {
            0 => {
                self.put("/* ");
                self.words(20);
                self.put("\n   ");
                self.words(12);
                self.put(" */\n");
            }
            1 => {
                self.put("/// ");
                self.words(8);
                self.put("\npub const ");
                self.name();
                self.put(": f64 = ");
                self.number();
                self.put("; // ");
                self.words(4);
                self.put("\n");
            }
            2 => {
                self.put("#[derive(Clone, Debug)]\npub struct Sheet<'a> {\n");
                for _ in 0..2 + self.chance.below(4) {
                    self.put("    pub ");
                    self.name();
                    self.put(": ");
                    let of = self.chance.pick(TYPES);
                    self.put(of);
                    self.put(",\n");
                }
                self.put("}\n");
            }
            _ => {
                self.put("/// ");
                self.words(8);
                self.put("\npub fn ");
                self.name();
                self.put("<'a>(");
                self.name();
                self.put(": &'a [f64], ");
                self.name();
                self.put(": u32) -> bool {\n");
                for _ in 0..3 + self.chance.below(8) {
                    self.statement("    ");
                }
                self.put("    ");
                self.value(2);
                self.put("\n}\n");
            }
        }
        self.put("\n");
    }
}

/// Which text.
#[derive(Clone, Copy, PartialEq)]
pub enum Choice {
    /// A source of ASCII alone.
    Ascii,
    /// A source with names, comments and strings outside ASCII.
    Mixed,
    /// Names outside ASCII and blanks, nothing else: the lists are searched at almost every character.
    Names,
    /// A source of ASCII alone whose lines end with CR LF.
    CrLf,
}

/// A text of exactly that many bytes.
pub fn source(bytes: usize, choice: Choice) -> String {
    if choice == Choice::Names {
        return names(bytes);
    }
    let outside = choice == Choice::Mixed;
    let end = if choice == Choice::CrLf { "\r\n" } else { "\n" };
    let mut writer = Writer { chance: Chance(20), outside, line: String::new() };
    let mut text = "//! Rules of the department.\n\nuse std::fmt;\n\n".replace('\n', end);
    loop {
        writer.item();
        let item = writer.line.replace('\n', end);
        if text.len() + item.len() > bytes {
            break;
        }
        text.push_str(&item);
        writer.line.clear();
    }
    // The rest is a comment, or blanks where even that has no room.
    let rest = bytes - text.len();
    if rest >= 3 + end.len() {
        text.push_str("//");
        text.extend(
            std::iter::repeat_n(" -", rest).flat_map(str::chars).take(rest - 2 - end.len()),
        );
        text.push_str(end);
    } else {
        text.extend(std::iter::repeat_n('\n', rest));
    }
    text
}

fn names(bytes: usize) -> String {
    let mut chance = Chance(21);
    let mut text = String::new();
    loop {
        let name = chance.pick(NAMES_OUTSIDE);
        if text.len() + name.len() + 1 > bytes {
            break;
        }
        text.push_str(name);
        text.push(if chance.below(8) == 0 { '\n' } else { ' ' });
    }
    text.extend(std::iter::repeat_n(' ', bytes - text.len()));
    text
}
