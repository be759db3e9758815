//! A call with all its arguments, and its form as text.

use crate::chance::Chance;
use baseline::Mode;

#[derive(Clone, Debug, PartialEq, Eq)]
pub enum Call {
    Connect(Connect),
    Step(Step),
    Complies(Complies),
    FromChoosing(FromChoosing),
    FromText(FromText),
    CheckPlan(CheckPlan),
    Row(Row),
}

/// Without a mode it is adapter_connect that is called, with one adapter_connect_mode. With `null`, slices without elements
/// pass as null pointers. With `small`, the lent records hold small numbers.
#[derive(Clone, Debug, Default, PartialEq, Eq)]
pub struct Connect {
    pub mode: Option<u8>,
    pub k: u8,
    pub old: Vec<u8>,
    pub new: Vec<u8>,
    pub records: usize,
    pub room: usize,
    pub null: bool,
    pub small: bool,
}

#[derive(Clone, Debug, Default, PartialEq, Eq)]
pub struct Step {
    pub plan: Vec<u8>,
    pub state: u16,
    pub code: u8,
    pub null: bool,
}

#[derive(Clone, Debug, Default, PartialEq, Eq)]
pub struct Complies {
    pub client: Vec<u8>,
    pub service: Vec<u8>,
    pub null: bool,
}

#[derive(Clone, Debug, Default, PartialEq, Eq)]
pub struct FromChoosing {
    pub choosing: Vec<u8>,
    pub room: usize,
    pub null: bool,
}

/// The conversion of a text, and where it is at fault: both are called, one after the other.
#[derive(Clone, Debug, Default, PartialEq, Eq)]
pub struct FromText {
    pub text: Vec<u8>,
    pub room: usize,
    pub null: bool,
}

/// The check of a plan, and what is at fault in it: both are called, one after the other, each with a table filled anew.
#[derive(Clone, Debug, Default, PartialEq, Eq)]
pub struct CheckPlan {
    pub mode: u8,
    pub old: Vec<u8>,
    pub new: Vec<u8>,
    pub plan: Vec<u8>,
    pub records: usize,
    pub null: bool,
    pub small: bool,
}

/// The row of a state of the sheet with this number, and why there is none: both are called, one after the other.
#[derive(Clone, Debug, Default, PartialEq, Eq)]
pub struct Row {
    pub first: Vec<u8>,
    pub second: Vec<u8>,
    pub sheet: u8,
    pub state: u8,
    pub null: bool,
}

/// A byte that names the settled mode: for one in two the 1 of the header.
pub fn settled(chance: &mut Chance) -> u8 {
    let any = chance.between(1, 255) as u8;
    chance.pick(&[1, any])
}

impl Connect {
    /// A call with so many records and plan bytes lent. One in two is settled; most of the others have no mode.
    pub fn new(chance: &mut Chance, k: u8, old: Vec<u8>, new: Vec<u8>, records: usize, room: usize) -> Connect {
        let settled = Some(settled(chance));
        let mode = chance.pick(&[None, None, None, Some(0), settled, settled, settled, settled]);
        let kind = chance.below(4);
        Connect { mode, k, old, new, records, room, null: kind < 2, small: kind % 2 == 1 }
    }

    /// The mode, where there is none the paper's.
    pub fn mode(&self) -> Mode {
        Mode::named(self.mode.unwrap_or(0))
    }
}

impl CheckPlan {
    /// The call with these sheets and this plan, and so many records lent. One in two is settled.
    pub fn new(chance: &mut Chance, old: Vec<u8>, new: Vec<u8>, plan: Vec<u8>, records: usize) -> CheckPlan {
        let settled = settled(chance);
        let (mode, kind) = (chance.pick(&[0, settled]), chance.below(4));
        CheckPlan { mode, old, new, plan, records, null: kind < 2, small: kind % 2 == 1 }
    }
}

/// An argument.
pub enum Field<'a> {
    Bytes(&'a mut Vec<u8>),
    Byte(&'a mut u8),
    Word(&'a mut u16),
    Size(&'a mut usize),
    Flag(&'a mut bool),
}

impl Field<'_> {
    /// The value of a number.
    pub fn number(&self) -> Option<usize> {
        match self {
            Field::Bytes(_) => None,
            Field::Byte(value) => Some((**value).into()),
            Field::Word(value) => Some((**value).into()),
            Field::Size(value) => Some(**value),
            Field::Flag(value) => Some((**value).into()),
        }
    }

    pub fn bytes(&mut self) -> Option<&mut Vec<u8>> {
        match self {
            Field::Bytes(bytes) => Some(bytes),
            _ => None,
        }
    }

    /// Gives a number another value; nothing if it has no such value.
    pub fn set(&mut self, number: usize) -> Option<()> {
        match self {
            Field::Bytes(_) => return None,
            Field::Byte(value) => **value = number.try_into().ok()?,
            Field::Word(value) => **value = number.try_into().ok()?,
            Field::Size(value) => **value = number,
            Field::Flag(value) => **value = number != 0,
        }
        Some(())
    }

    fn text(&self) -> String {
        match self {
            Field::Bytes(bytes) => bytes.iter().map(|byte| format!(" {byte:02x}")).collect(),
            number => format!(" {}", number.number().unwrap_or(0)),
        }
    }

    fn read(&mut self, words: &[&str]) -> Option<()> {
        match self {
            Field::Bytes(bytes) => {
                **bytes = words.iter().map(|word| u8::from_str_radix(word, 16).ok()).collect::<Option<_>>()?;
                Some(())
            }
            number => number.set(words.first()?.parse().ok()?),
        }
    }
}

impl Call {
    pub fn name(&self) -> &'static str {
        match self {
            Call::Connect(Connect { mode: None, .. }) => "connect",
            Call::Connect(_) => "connect_mode",
            Call::Step(_) => "step",
            Call::Complies(_) => "complies",
            Call::FromChoosing(_) => "from_choosing",
            Call::FromText(_) => "from_text",
            Call::CheckPlan(_) => "check_plan",
            Call::Row(_) => "row",
        }
    }

    /// The sheet of this number, if the call has one.
    pub fn sheet(&self, number: u32) -> Option<&[u8]> {
        let (first, second) = match self {
            Call::Connect(Connect { old, new, .. }) | Call::CheckPlan(CheckPlan { old, new, .. }) => (old, new),
            Call::Complies(Complies { client, service, .. }) => (client, service),
            Call::Row(Row { first, second, .. }) => (first, second),
            Call::Step(_) | Call::FromChoosing(_) | Call::FromText(_) => return None,
        };
        match number {
            1 => Some(first),
            2 => Some(second),
            _ => None,
        }
    }

    /// The arguments, by name.
    #[rustfmt::skip]
    pub fn fields(&mut self) -> Vec<(&'static str, Field<'_>)> {
        match self {
            Call::Connect(Connect { mode, k, old, new, records, room, null, small }) => {
                let mode = mode.iter_mut().map(|mode| ("mode", Field::Byte(mode)));
                mode.chain([
                    ("k", Field::Byte(k)), ("old", Field::Bytes(old)), ("new", Field::Bytes(new)),
                    ("records", Field::Size(records)), ("room", Field::Size(room)),
                    ("null", Field::Flag(null)), ("small", Field::Flag(small)),
                ]).collect()
            }
            Call::Step(Step { plan, state, code, null }) => vec![
                ("plan", Field::Bytes(plan)), ("state", Field::Word(state)),
                ("code", Field::Byte(code)), ("null", Field::Flag(null)),
            ],
            Call::Complies(Complies { client, service, null }) => vec![
                ("client", Field::Bytes(client)), ("service", Field::Bytes(service)), ("null", Field::Flag(null)),
            ],
            Call::FromChoosing(FromChoosing { choosing, room, null }) => vec![
                ("choosing", Field::Bytes(choosing)), ("room", Field::Size(room)), ("null", Field::Flag(null)),
            ],
            Call::FromText(FromText { text, room, null }) => vec![
                ("text", Field::Bytes(text)), ("room", Field::Size(room)), ("null", Field::Flag(null)),
            ],
            Call::CheckPlan(CheckPlan { mode, old, new, plan, records, null, small }) => vec![
                ("mode", Field::Byte(mode)),
                ("old", Field::Bytes(old)), ("new", Field::Bytes(new)), ("plan", Field::Bytes(plan)),
                ("records", Field::Size(records)), ("null", Field::Flag(null)), ("small", Field::Flag(small)),
            ],
            Call::Row(Row { first, second, sheet, state, null }) => vec![
                ("first", Field::Bytes(first)), ("second", Field::Bytes(second)),
                ("sheet", Field::Byte(sheet)), ("state", Field::Byte(state)), ("null", Field::Flag(null)),
            ],
        }
    }

    /// A line with the function's name, then one for each argument: its name, and bytes in hex or a number.
    pub fn text(&self) -> String {
        let mut lines = format!("{}\n", self.name());
        for (name, field) in self.clone().fields() {
            lines += &format!("{name}{}\n", field.text());
        }
        lines
    }

    /// The call of a text; lines that begin with # are passed over, and an argument without a line is empty or 0.
    pub fn read(text: &str) -> Option<Call> {
        let mut lines = text.lines().map(str::trim).filter(|line| !line.is_empty() && !line.starts_with('#'));
        let mut call = match lines.next()? {
            "connect" => Call::Connect(Connect::default()),
            "connect_mode" => Call::Connect(Connect { mode: Some(0), ..Connect::default() }),
            "step" => Call::Step(Step::default()),
            "complies" => Call::Complies(Complies::default()),
            "from_choosing" => Call::FromChoosing(FromChoosing::default()),
            "from_text" => Call::FromText(FromText::default()),
            "check_plan" => Call::CheckPlan(CheckPlan::default()),
            "row" => Call::Row(Row::default()),
            _ => return None,
        };
        for line in lines {
            let words: Vec<&str> = line.split_whitespace().collect();
            let (_, mut field) = call.fields().into_iter().find(|(name, _)| *name == words[0])?;
            field.read(&words[1..])?;
        }
        Some(call)
    }
}

#[cfg(test)]
mod tests {
    use super::*;

    #[test]
    fn a_call_is_read_as_it_was_written() {
        let mut chance = Chance::new(7);
        let connect = Connect { mode: None, ..Connect::new(&mut chance, 3, vec![1, 0xC5], vec![], 5, 21) };
        let settled = Connect { mode: Some(255), ..connect.clone() };
        let step = Step { plan: vec![0, 0xFF], state: 65535, code: 255, null: true };
        let complies = Complies { client: vec![9], ..Complies::default() };
        let converted = FromChoosing { choosing: vec![1, 0xC6], room: 2118, null: true };
        let typed = FromText { text: b"rec X.a".to_vec(), room: 11, null: true };
        let checked = CheckPlan { mode: 128, ..CheckPlan::new(&mut chance, vec![2], vec![], vec![3, 0xEE], 4097) };
        let shown = Row { first: vec![4], second: vec![0xC5, 5], sheet: 2, state: 63, null: true };
        let connecting = [connect, settled].map(Call::Connect);
        let others = [Call::Step(step), Call::Complies(complies), Call::CheckPlan(checked), Call::Row(shown)];
        let converting = [Call::FromChoosing(converted), Call::FromText(typed)];
        for call in connecting.into_iter().chain(others).chain(converting) {
            assert_eq!(Call::read(&format!("# why\n{}", call.text())), Some(call));
        }
        assert_eq!(Call::read("connect\nmode 1\n"), None);
        assert_eq!(Call::read("step\ncode 256\n"), None);
        assert_eq!(Call::read("step\nplan 1g\n"), None);
        assert_eq!(Call::read(""), None);
    }
}
