//! A call with what the original answers to it, and its comparison with the library.

use crate::calls::{Call, Value};
use oracle::patterns::same;

/// What a cell holds after a call.
#[derive(Clone, Copy, Debug)]
pub enum Cell {
    /// The bits that it held before.
    Kept,
    /// This number; any NaN for a NaN.
    Is(f64),
    /// Something that no result of the original shows.
    Unseen,
}

/// What a parameter holds after a call.
#[derive(Clone, Debug)]
pub enum After {
    /// What it held before, bit for bit.
    Kept,
    /// These cells.
    Numbers(Vec<Cell>),
    /// These words.
    Words(Vec<u32>),
}

impl After {
    /// These numbers.
    pub fn numbers(numbers: &[f64]) -> After {
        After::Numbers(numbers.iter().map(|&number| Cell::Is(number)).collect())
    }
}

/// A call with what the original answers to it.
pub struct Case {
    /// The call.
    pub call: &'static Call,
    /// What kind of case it is, for the choice of a sample.
    pub kind: String,
    /// The parameters as they are handed in.
    pub before: Vec<Value>,
    /// The number answered: 0, or the reason of the refusal.
    pub answer: u32,
    /// The parameters afterwards.
    pub after: Vec<After>,
}

impl Case {
    /// The case of a call that is refused: every parameter keeps its content.
    pub fn refused(call: &'static Call, kind: String, before: Vec<Value>, answer: u32) -> Case {
        let after = before.iter().map(|_| After::Kept).collect();
        Case {
            call,
            kind,
            before,
            answer,
            after,
        }
    }

    /// The case of a call that is accepted: `after` names the parameters that are written, and what they hold then.
    pub fn accepted(
        call: &'static Call,
        kind: String,
        before: Vec<Value>,
        after: impl IntoIterator<Item = (&'static str, After)>,
    ) -> Case {
        let mut case = Case::refused(call, kind, before, 0);
        for (name, value) in after {
            case.after[place(call, name)] = value;
        }
        case
    }

    /// Makes the call and says where it differs from the original, if it does.
    pub fn difference(&self) -> Option<String> {
        let mut values = self.before.clone();
        let answer = (self.call.make)(&mut values);
        if answer != self.answer {
            return Some(format!(
                "library answers {answer}, original {}",
                self.answer
            ));
        }
        (0..values.len()).find_map(|place| {
            let name = self.call.parameters[place];
            differs(&self.before[place], &self.after[place], &values[place])
                .map(|text| format!("{name}{text}"))
        })
    }

    /// The call with its parameters, as a text.
    pub fn description(&self) -> String {
        let mut text = format!("{} ({})", self.call.name, self.kind);
        for (name, value) in self.call.parameters.iter().zip(&self.before) {
            text += &format!("\n    {name}[{}]", value.len());
            if value.len() <= 240 {
                match value {
                    Value::Numbers(numbers) => {
                        for number in numbers {
                            text += &format!(" {:016X}", number.to_bits());
                        }
                    }
                    Value::Words(words) => {
                        for word in words {
                            text += &format!(" {word:X}");
                        }
                    }
                }
            }
        }
        text
    }
}

/// The place of a parameter.
pub fn place(call: &Call, name: &str) -> usize {
    let found = call.parameters.iter().position(|other| *other == name);
    found.unwrap_or_else(|| panic!("{} has no parameter {name}", call.name))
}

/// Where a parameter is not as it should be.
fn differs(before: &Value, after: &After, found: &Value) -> Option<String> {
    match (before, after, found) {
        (Value::Words(before), After::Kept, Value::Words(found)) => words_differ(before, found),
        (_, After::Words(after), Value::Words(found)) => words_differ(after, found),
        (Value::Numbers(before), after, Value::Numbers(found)) => {
            let cell = |place: usize| match after {
                After::Numbers(cells) => cells[place],
                _ => Cell::Kept,
            };
            (0..found.len()).find_map(|place| {
                let (was, is) = (before[place], found[place]);
                let wanted = match cell(place) {
                    Cell::Kept if was.to_bits() != is.to_bits() => was,
                    Cell::Is(number) if !same(number, is) => number,
                    _ => return None,
                };
                Some(format!(
                    "[{place}]: library {:016X} ({is:e}), original {:016X} ({wanted:e})",
                    is.to_bits(),
                    wanted.to_bits()
                ))
            })
        }
        _ => panic!("numbers and words"),
    }
}

fn words_differ(wanted: &[u32], found: &[u32]) -> Option<String> {
    let place = (0..found.len()).find(|&place| wanted[place] != found[place])?;
    Some(format!(
        "[{place}]: library {:08X}, original {:08X}",
        found[place], wanted[place]
    ))
}
