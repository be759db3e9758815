//! Contracts typed as text (document 02, request 7/13): random ones that the grammar derives, ones with many states, ready
//! sets or variables; blanks put in, bytes damaged, brackets taken away.

use crate::chance::Chance;
use baseline::LONGEST_TEXT;

/// How deep a text may be.
pub const DEEPEST: usize = 16;

/// Every byte that the grammar knows, and some that it does not.
const KNOWN: &[u8] = b"0XYZabcdefg!.+()rec";
const UNKNOWN: &[u8] = b"\0\t\n\r,-/1AWx[]hq\x1F\x7F\x80\xA0\xFF";

const VARIABLES: &[u8; 3] = b"XYZ";

/// The text of an action, by number.
fn action(number: usize) -> String {
    let name = char::from(b'a' + (number % 7) as u8);
    if number < 7 {
        name.into()
    } else {
        format!("!{name}")
    }
}

/// All actions, by number.
fn actions() -> Vec<String> {
    (0..14).map(action).collect()
}

/// How large a random text gets: so many marks, prefixes, recs and brackets, so deep, over so many names; one place in so
/// many is (+), one of the others +; one variable in so many may be any, none if it is 0.
#[derive(Clone, Copy, Debug)]
pub struct Shape {
    pub size: usize,
    pub depth: usize,
    pub names: usize,
    pub choices: usize,
    pub sums: usize,
    pub any_variable: usize,
}

/// The variables that a rec binds here, as masks: those under a prefix within it, and those that are not yet.
#[derive(Clone, Copy, Default)]
struct Bound {
    usable: u8,
    waiting: u8,
}

impl Shape {
    pub fn small(chance: &mut Chance) -> Shape {
        Shape {
            size: chance.between(0, 12),
            depth: DEEPEST,
            names: chance.pick(&[1, 2, 3, 7]),
            choices: chance.pick(&[3, 4, 8]),
            sums: chance.pick(&[2, 3, 4]),
            any_variable: 0,
        }
    }

    /// As much as a text may hold, in a chain or in depth.
    pub fn large(chance: &mut Chance) -> Shape {
        let (choices, sums) = chance.pick(&[(2, 2), (4, 2), (8, 1), (12, 4), (20, 12)]);
        Shape { size: chance.between(20, 70), choices, sums, ..Shape::small(chance) }
    }

    /// A text that the grammar derives within the depth. Its variables are right, but for those that may be any.
    pub fn text(&self, chance: &mut Chance) -> Vec<u8> {
        let mut text = Vec::new();
        self.whole(chance, &mut text, (self.size, self.depth), Bound::default());
        text
    }

    fn whole(&self, chance: &mut Chance, text: &mut Vec<u8>, (size, depth): (usize, usize), bound: Bound) {
        if size == 0 || !chance.one_in(self.choices) {
            return self.sums(chance, text, (size, depth), bound);
        }
        let left = chance.below(size);
        self.whole(chance, text, (left, depth), bound);
        text.extend(b"(+)");
        self.sums(chance, text, (size - 1 - left, depth), bound);
    }

    fn sums(&self, chance: &mut Chance, text: &mut Vec<u8>, (size, depth): (usize, usize), bound: Bound) {
        if size == 0 || !chance.one_in(self.sums) {
            return self.tight(chance, text, (size, depth), bound);
        }
        let left = chance.below(size);
        self.sums(chance, text, (left, depth), bound);
        text.push(b'+');
        self.tight(chance, text, (size - 1 - left, depth), bound);
    }

    fn tight(&self, chance: &mut Chance, text: &mut Vec<u8>, (size, depth): (usize, usize), bound: Bound) {
        if size == 0 || depth == 0 {
            return self.leaf(chance, text, depth, bound);
        }
        let less = (size - 1, depth - 1);
        match chance.below(8) {
            0 | 1 => {
                let place = chance.below(3);
                let Bound { usable, waiting } = bound;
                text.extend([b'r', b'e', b'c', VARIABLES[place], b'.']);
                let bound = Bound { usable: usable & !(1 << place), waiting: waiting | 1 << place };
                self.tight(chance, text, less, bound);
            }
            2..5 => {
                text.push(b'(');
                self.whole(chance, text, less, bound);
                text.push(b')');
            }
            _ => {
                text.extend(self.action(chance).bytes().chain([b'.']));
                self.tight(chance, text, less, Bound { usable: bound.usable | bound.waiting, waiting: 0 });
            }
        }
    }

    fn leaf(&self, chance: &mut Chance, text: &mut Vec<u8>, depth: usize, bound: Bound) {
        let usable: Vec<u8> = (0..3).filter(|place| bound.usable >> place & 1 == 1).map(|at| VARIABLES[at]).collect();
        if self.any_variable > 0 && chance.one_in(self.any_variable) {
            text.push(chance.pick(VARIABLES));
        } else if !usable.is_empty() && !chance.one_in(3) {
            text.push(chance.pick(&usable));
        } else if depth == 0 || chance.one_in(4) {
            text.push(b'0');
        } else {
            text.extend(self.action(chance).bytes());
        }
    }

    fn action(&self, chance: &mut Chance) -> String {
        action(chance.below(self.names) + chance.pick(&[0, 0, 7]))
    }
}

/// Each action or nothing, or one or another: all unions of these are ready sets.
fn unions(chance: &mut Chance, some: &[String]) -> String {
    let others = actions();
    let pair = |one: &String| {
        let other = if chance.one_in(3) { &others[chance.below(14)][..] } else { "0" };
        format!("({one}(+){other})")
    };
    some.iter().map(pair).collect::<Vec<_>>().join("+")
}

/// A sum of which one side has up to 2 to the power of 14 ready sets, and the other most of the actions: so there may be
/// few in the end. In one of several places.
pub fn families(chance: &mut Chance) -> Vec<u8> {
    let mut some = actions();
    for last in (1..some.len()).rev() {
        some.swap(last, chance.below(last + 1));
    }
    some.truncate(chance.pick(&[3, 4, 5, 8, 11, 13, 14]));
    let (many, missing) = (unions(chance, &some), chance.pick(&[0, 0, 1, 2, 3, 4]).min(some.len() - 1));
    let rest = some[missing..].join("+");
    let text = match chance.below(7) {
        0 => format!("{rest}+{many}"),
        1 => format!("a.({many}+{rest})+b"),
        2 => format!("rec X.({many}+{rest}+!g.(X+{rest}))"),
        3 => format!("({many})+({rest})(+){rest}"),
        4 => many,
        _ => format!("{many}+{rest}"),
    };
    text.into_bytes()
}

fn ring(size: usize) -> String {
    format!("recX.{}X", "a.".repeat(size))
}

/// Rings of one action side by side: about as many states as the least common multiple of their sizes.
pub fn rings(chance: &mut Chance) -> Vec<u8> {
    let sizes = chance.pick(&[&[7, 9][..], &[7, 8], &[3, 4, 5], &[5, 13], &[8, 9], &[2, 7, 9], &[6], &[4, 6]]);
    let mark = chance.pick(&["+", "+", "(+)"]);
    let rings: Vec<String> = sizes.iter().map(|size| ring(*size)).collect();
    let more = chance.pick(&["", "", "+b", "+b.c", "+b.(0+0)", "+a.b", "(+)0", "+!g.a.a.a"]);
    format!("{}{}{more}", "a.".repeat(chance.pick(&[0, 0, 1, 3])), rings.join(mark)).into_bytes()
}

/// Chains behind different actions: the more and the longer, the more states.
pub fn chains(chance: &mut Chance) -> Vec<u8> {
    let count = chance.between(1, 8);
    let chain = |place| format!("{}.{}", action(place), "a.".repeat(chance.pick(&[0, 1, 7, 14, 15, 15]))) + "0";
    (0..count).map(chain).collect::<Vec<_>>().join("+").into_bytes()
}

/// All actions are in each of about 61 + `tail` states, with 8 + `more` ready sets: with 3 and 0 the sheet is as long as
/// there is one.
pub fn long_rows(tail: usize, more: usize) -> Vec<u8> {
    let to_z = |action: &String| format!("{action}.Z");
    let all: Vec<String> = actions().iter().map(to_z).collect();
    let (all, some) = (all.join("+"), all[..7 + more].join("(+)"));
    let rings = [4, 3, 5].map(ring).join("(+)");
    format!("recZ.({all}(+){some})(+){}{rings}", "a.".repeat(tail)).into_bytes()
}

/// Recs within one another, the body of each a sum of the variables outside: with each variable taken for its body every
/// time, there would be millions of actions.
pub fn nested(chance: &mut Chance) -> Vec<u8> {
    let (levels, mark) = (chance.between(1, 5), chance.pick(&["+", "+", "(+)"]));
    let first = chance.pick(&["a", "a+b", "(a(+)b)+(c(+)d)", "(a(+)0)+(b(+)0)+(!c(+)0)"]);
    let most = 190 / (levels + 1) / (1 + mark.len());
    let (mut text, mut outer) = (format!("recX.({first}"), vec!["X"]);
    for _ in 1..levels {
        let name = chance.pick(&["X", "Y", "Z"]);
        outer.retain(|other| *other != name);
        let usable = if outer.is_empty() { &["b"] } else { &outer[..] };
        let uses: Vec<&str> = (0..chance.between(1, most)).map(|_| chance.pick(usable)).collect();
        text += &format!("+a.rec{name}.({}", uses.join(mark));
        outer.push(name);
    }
    let uses: Vec<&str> = (0..chance.between(1, most)).map(|_| chance.pick(&outer)).collect();
    (text + &format!("+a.({})", uses.join(mark)) + &")".repeat(levels)).into_bytes()
}

/// Items side by side, to about so many bytes.
pub fn wide(chance: &mut Chance, length: usize) -> Vec<u8> {
    let items =
        chance.pick(&[&["a"][..], &["a", "b"], &["0"], &["0", "a"], &["(a)"], &["a.b", "b.a"], &["a", "!g", "c"]]);
    let marks = chance.pick(&[&["+"][..], &["(+)"], &["+", "+", "(+)"]]);
    let mut text = chance.pick(items).to_string();
    loop {
        let more = format!("{}{}", chance.pick(marks), chance.pick(items));
        if text.len() + more.len() > length {
            return text.into_bytes();
        }
        text += &more;
    }
}

/// With blanks put in, anywhere, until there are so many bytes.
pub fn with_blanks(chance: &mut Chance, mut text: Vec<u8>, length: usize) -> Vec<u8> {
    while text.len() < length {
        let at = chance.below(text.len() + 1);
        text.splice(at..at, vec![b' '; chance.between(1, 3).min(length - text.len())]);
    }
    text
}

/// A few blanks, or as many as there may be, or one more.
pub fn sprinkled(chance: &mut Chance, text: Vec<u8>) -> Vec<u8> {
    let few = text.len() + chance.between(1, 12);
    let length = chance.pick(&[few, few, few, LONGEST_TEXT, LONGEST_TEXT + 1]);
    with_blanks(chance, text, length)
}

fn any_byte(chance: &mut Chance) -> u8 {
    match chance.below(8) {
        0 => chance.byte(),
        1 => chance.pick(UNKNOWN),
        _ => chance.pick(KNOWN),
    }
}

/// Bytes that the grammar knows, in any order.
pub fn noise(chance: &mut Chance, length: usize) -> Vec<u8> {
    (0..length).map(|_| chance.pick(KNOWN)).collect()
}

/// The text with one fault, or two: a byte changed, left out, put in, exchanged with the next, the end cut off, a piece
/// doubled.
pub fn damaged(chance: &mut Chance, text: &[u8]) -> Vec<u8> {
    let mut text = text.to_vec();
    for _ in 0..chance.pick(&[1, 1, 1, 2]) {
        let (byte, at) = (any_byte(chance), chance.below(text.len().max(1)));
        match chance.below(8) {
            _ if text.is_empty() => text.push(byte),
            0..3 => text[at] = byte,
            3 => drop(text.remove(at)),
            4 => text.insert(at, byte),
            5 => text[at..].chunks_mut(2).take(1).for_each(<[u8]>::reverse),
            6 => text.truncate(at),
            _ => text.extend_from_within(at..),
        }
    }
    text
}

/// Pieces of up to so many bytes are left out of a text.
const PIECE: usize = 12;

/// The text without a bracket and the one that closes it, for each of its brackets; then without each short piece.
pub fn shorter(text: &[u8]) -> impl Iterator<Item = Vec<u8>> + '_ {
    let pieces = (1..=PIECE.min(text.len())).rev().flat_map(|size| (0..=text.len() - size).map(move |at| (at, size)));
    let without = pieces.map(|(at, size)| [&text[..at], &text[at + size..]].concat());
    without_brackets(text).into_iter().chain(without)
}

fn without_brackets(text: &[u8]) -> Vec<Vec<u8>> {
    let (mut open, mut all) = (Vec::new(), Vec::new());
    for (at, byte) in text.iter().enumerate() {
        match byte {
            b'(' => open.push(at),
            b')' => {
                all.extend(open.pop().map(|begin| [&text[..begin], &text[begin + 1..at], &text[at + 1..]].concat()))
            }
            _ => {}
        }
    }
    all
}

#[cfg(test)]
mod tests {
    use super::*;

    fn answer(text: &[u8]) -> (u8, u16) {
        let answer = baseline::from_text(text, &mut [0; 2118]);
        (answer.number, answer.length)
    }

    /// How often each number is the answer to texts of a shape that are not too long.
    fn numbers(seed: u64, shape: impl Fn(&mut Chance) -> Shape) -> [usize; 24] {
        let (mut chance, mut counts) = (Chance::new(seed), [0; 24]);
        for _ in 0..3000 {
            let text = shape(&mut chance).text(&mut chance);
            if text.len() <= LONGEST_TEXT {
                counts[usize::from(answer(&text).0)] += 1;
            }
        }
        counts
    }

    #[test]
    fn shapes_are_derived_within_the_depth() {
        for (seed, shape) in [(1, Shape::small as fn(&mut Chance) -> Shape), (2, Shape::large)] {
            let counts = numbers(seed, shape);
            assert_eq!(counts[0] + counts[19] + counts[20], counts.iter().sum(), "{counts:?}");
            assert!(counts[0] > 1000, "{counts:?}");
        }
        let deeper = numbers(3, |chance| Shape { depth: DEEPEST + 1, ..Shape::large(chance) });
        assert!(deeper[22] > 50, "{deeper:?}");
        let any = numbers(4, |chance| Shape { any_variable: 4, ..Shape::small(chance) });
        assert!(any[22] == 0 && any[23] > 300, "{any:?}");
    }

    #[test]
    fn as_long_as_a_sheet_can_be() {
        for (tail, more, number) in [(3, 0, 0), (2, 0, 0), (4, 0, 19), (3, 1, 20), (4, 1, 19)] {
            let text = long_rows(tail, more);
            assert!(text.len() <= LONGEST_TEXT);
            assert_eq!(answer(&text).0, number, "{tail}, {more}");
        }
        assert_eq!(answer(&long_rows(3, 0)).1, 2118);
    }

    #[test]
    fn what_is_made_is_derived_and_meets_the_limits() {
        let makers: [fn(&mut Chance) -> Vec<u8>; 5] =
            [families, rings, chains, nested, |chance| wide(chance, LONGEST_TEXT)];
        for (place, maker) in makers.into_iter().enumerate() {
            let (mut chance, mut counts) = (Chance::new(place as u64), [0; 24]);
            for _ in 0..400 {
                let text = maker(&mut chance);
                let number = answer(&text).0;
                assert!(matches!(number, 0 | 1 | 19 | 20), "{}: {number}", String::from_utf8_lossy(&text));
                counts[usize::from(number)] += 1;
            }
            assert!(counts[0] > 40, "{place}: {counts:?}");
            assert!(place != 0 || counts[20] > 40, "{counts:?}");
            assert!(!matches!(place, 1 | 2) || counts[19] > 20, "{counts:?}");
        }
    }

    #[test]
    fn blanks_say_nothing() {
        let mut chance = Chance::new(9);
        for _ in 0..500 {
            let text = Shape::small(&mut chance).text(&mut chance);
            let length = chance.between(text.len(), LONGEST_TEXT);
            let spaced = with_blanks(&mut chance, text.clone(), length);
            assert_eq!((spaced.len(), answer(&spaced)), (length, answer(&text)));
        }
    }

    #[test]
    fn brackets_go_in_pairs() {
        assert_eq!(without_brackets(b"(a+(b))"), [b"(a+b)", b"a+(b)"]);
        assert_eq!(without_brackets(b"a)(b"), Vec::<Vec<u8>>::new());
        assert_eq!(shorter(b"(a)").collect::<Vec<_>>(), [&b"a"[..], b"", b")", b"(", b"a)", b"()", b"(a"]);
    }
}
