//! Contracts typed as text (document 02, request 7/13).

mod made;

use baseline::{from_text, text_fault, SheetAnswer, LONGEST_SHEET};
use made::{sheet, State, A, B, END};

const C: u16 = 1 << 2;
const SEND_A: u16 = A << 7;
const SEND_C: u16 = C << 7;
const SEND_D: u16 = 1 << 10;

/// The answer to a text with so many bytes lent, and all of these afterwards.
fn answer_in(room: usize, text: &str) -> (SheetAnswer, Vec<u8>) {
    let mut lent = vec![0xEE; room];
    let answer = from_text(text.as_bytes(), &mut lent);
    assert_eq!(answer.sheet, u8::from(answer.number == 1), "{text}");
    assert_eq!((answer.state, answer.number != 0), (0, answer.length == 0), "{text}");
    assert!(lent[answer.length.into()..].iter().all(|byte| *byte == 0xEE), "{text}");
    (answer, lent)
}

/// The number for a text, and the offset of what is at fault in it, with more lent than any sheet needs.
fn numbers(text: &str) -> (u8, u16) {
    (answer_in(LONGEST_SHEET + 9, text).0.number, text_fault(text.as_bytes()))
}

fn number(text: &str) -> u8 {
    numbers(text).0
}

/// The sheet of a text.
fn read(text: &str) -> Vec<u8> {
    let (answer, mut lent) = answer_in(LONGEST_SHEET + 9, text);
    assert_eq!(answer, SheetAnswer { length: answer.length, ..SheetAnswer::default() }, "{text}");
    assert_eq!(text_fault(text.as_bytes()), 0, "{text}");
    lent.truncate(answer.length.into());
    lent
}

fn reads(text: &str, states: &[State]) {
    assert_eq!(read(text), sheet(7, 0, states), "{text}");
}

/// How many states a text has.
fn states(text: &str) -> u8 {
    let sheet = read(text);
    sheet[sheet.len() - 4]
}

/// The actions, by number.
fn actions() -> Vec<String> {
    let takes = ('a'..='g').map(String::from);
    takes.clone().chain(takes.map(|name| format!("!{name}"))).collect()
}

/// Every service term of M1 to M13.
#[test]
fn cases_as_text() {
    reads("0", &[END]);
    reads("a", &[(&[A], &[1]), END]);
    reads("!a", &[(&[SEND_A], &[1]), END]);
    reads("a+b", &[(&[A | B], &[1, 1]), END]);
    reads("a(+)b", &[(&[A, B], &[1, 1]), END]);
    reads("a.!c", &[(&[A], &[1]), (&[SEND_C], &[2]), END]);
    reads("a.!d", &[(&[A], &[1]), (&[SEND_D], &[2]), END]);
    reads("rec X.a.X", &[(&[A], &[0])]);
    reads("c.a", &[(&[C], &[1]), (&[A], &[2]), END]);
    reads("a.c", &[(&[A], &[1]), (&[C], &[2]), END]);
}

/// M1's new sheet but for n, with exactly enough lent, more, and one byte less.
#[test]
fn m1_byte_for_byte() {
    let expected = [1, 3, 0, 1, 1, 1, 0, 0, 0, 0, 5, 0, 8, 0, 2, 7, 0, 0xC5];
    for room in [18, 19, 300] {
        let (answer, lent) = answer_in(room, "a+b");
        assert_eq!(answer, SheetAnswer { length: 18, ..SheetAnswer::default() });
        assert_eq!(lent[..18], expected);
    }
    for room in [0, 17] {
        assert_eq!(answer_in(room, "a+b").0, SheetAnswer { number: 13, ..SheetAnswer::default() });
    }
}

#[test]
fn what_binds_tighter() {
    let same = |one: &str, other: &str| assert_eq!(read(one), read(other), "{one} and {other}");
    same("a.b+c", "(a.b)+c");
    same("a+b(+)c", "(a+b)(+)c");
    same("a(+)b+c", "a(+)(b+c)");
    same("rec X.a.X+b", "(rec X.a.X)+b");
    same("rec X.a.X(+)b", "(rec X.a.X)(+)b");
    same("a.rec X.b.X+c", "(a.(rec X.(b.X)))+c");
    reads("rec X.(a.X+b)", &[(&[A | B], &[0, 1]), END]);
    reads("rec X.a.X+b", &[(&[A | B], &[1, 2]), (&[A], &[1]), END]);
    reads("a(+)b+c", &[(&[A, B | C], &[1, 1, 1]), END]);
    reads("(a(+)b)+c", &[(&[A | C, B | C], &[1, 1, 1]), END]);
}

/// A sum is one place, equal texts at different places are two, and a bracket, a rec or a variable is its body. All ends
/// are one place; a sum of ends is another.
#[test]
fn places() {
    assert_eq!(states("a.b+c.b"), 4);
    assert_eq!(states("a.b+a.b"), 3);
    assert_eq!(states("rec X.a.b.X"), 2);
    assert_eq!(states("rec X.(a.(X)+b.rec Y.X)"), 1);
    assert_eq!(states("a.X+b".replace('X', "rec X.c.(X)").as_str()), 3);
    assert_eq!(states("a+b.0+c.(0)+d.rec X.0"), 2);
    assert_eq!(states("a+b.(0+0)+c.(0(+)0)"), 4);
    reads("a+a.b", &[(&[A], &[1]), (&[0, B], &[2]), END]);
    reads("0+0", &[END]);
    reads("a.b+a.c", &[(&[A], &[1]), (&[B, C], &[2, 2]), END]);
    reads("rec X.(a.X+a)", &[(&[A], &[1]), (&[0, A], &[1])]);
    // Behind a stands the body of Y, which is what X means; behind b the sum, in which Y is another place.
    reads("rec X.a.rec Y.b.(X+Y)", &[(&[A], &[1]), (&[B], &[2]), (&[A | B], &[1, 2])]);
}

/// A variable belongs to the nearest rec of its name.
#[test]
fn shadowing() {
    reads("rec X.a.rec X.b.X", &[(&[A], &[1]), (&[B], &[1])]);
    reads("rec X.a.((rec X.b.X)+c.X)", &[(&[A], &[1]), (&[B | C], &[2, 0]), (&[B], &[2])]);
    assert_eq!(numbers("rec X.a.rec X.X"), (23, 14));
    assert_eq!(number("rec X.a.rec Y.X"), 0);
}

#[test]
fn blanks() {
    for text in [" r e c X . a . X ", "rec X.a.X          ", "recX.a.X"] {
        assert_eq!(read(text), read("rec X.a.X"));
    }
    assert_eq!(read("a ( + ) ! b"), read("a(+)!b"));
    assert_eq!(numbers("a b"), (22, 2));
    assert_eq!(numbers("a\t+b"), (22, 1));
    assert_eq!(numbers("a\n"), (22, 1));
    assert_eq!(numbers(""), (22, 0));
    assert_eq!(numbers("   "), (22, 3));
}

/// Blanks count for the length, and the length comes before everything else.
#[test]
fn lengths() {
    let blank = " ".repeat(255);
    for text in ["a", "0"] {
        assert_eq!(read(&format!("{blank}{text}")), read(text));
        assert_eq!(numbers(&format!("{blank}{text} ")), (1, 0));
    }
    assert_eq!(numbers(&format!("{blank} ")), (22, 256));
    assert_eq!(numbers(&format!("{blank}  ")), (1, 0));
    assert_eq!(numbers(&"q".repeat(257)), (1, 0));
    assert_eq!(answer_in(0, &"q".repeat(257)).0, SheetAnswer { number: 1, sheet: 1, ..SheetAnswer::default() });
}

#[test]
fn sixteen_deep() {
    let prefixes = |count, rest| format!("{}{rest}", "a.".repeat(count));
    let brackets = |count, rest| format!("{}{rest}{}", "(".repeat(count), ")".repeat(count));
    let recs = |count, rest| format!("{}{rest}", "recX.".repeat(count));
    assert_eq!([states(&prefixes(16, "0")), states(&prefixes(15, "a"))], [17; 2]);
    for (text, at) in [
        (prefixes(16, "a"), 32),
        (prefixes(17, "0"), 32),
        (prefixes(16, "!a"), 32),
        (prefixes(16, "(0)"), 32),
        (prefixes(16, "recX.0"), 32),
        (brackets(16, "a"), 16),
        (brackets(16, "!a"), 16),
        (brackets(17, "0"), 16),
        (brackets(16, "0+a"), 18),
        (recs(16, "a"), 80),
        (recs(17, "0"), 80),
    ] {
        assert_eq!(numbers(&text), (22, at), "{text}");
    }
    for text in
        [prefixes(16, "0(+)a+0"), brackets(16, "0(+)0+0"), brackets(15, "0+a(+)!a"), recs(16, "0"), recs(15, "a")]
    {
        assert_eq!(number(&text), 0, "{text}");
    }
    assert_eq!(number(&format!("rec X.{}", prefixes(15, "X"))), 0);
    assert_eq!(numbers(&format!("rec X.{}", prefixes(16, "X"))), (22, 36));
}

/// The first byte at which no derivation can go on; the length of the text if it only ends too early.
#[test]
fn forms_at_fault() {
    for (text, at) in [
        ("q", 0),
        ("h", 0),
        ("+", 0),
        (".", 0),
        ("W", 0),
        ("1", 0),
        ("A", 0),
        ("ab", 1),
        ("a(b)", 2),
        ("a()", 2),
        ("a(+", 3),
        ("a(++", 3),
        ("a(+)", 4),
        ("a(+)+", 4),
        ("()", 1),
        ("(+", 1),
        ("(a", 2),
        ("(a))", 3),
        ("a+", 2),
        ("a++b", 2),
        ("a.", 2),
        ("a.+b", 2),
        ("0.a", 1),
        ("(a).b", 3),
        ("rec X.a.X.b", 9),
        ("!", 1),
        ("!!a", 1),
        ("!h", 1),
        ("! 0", 2),
        ("r", 1),
        ("rea", 2),
        ("rec", 3),
        ("rec W.0", 4),
        ("rec X", 5),
        ("recX+", 4),
        ("rec X.", 6),
        ("rec X a", 6),
        ("rec X.rec", 9),
        (" a +  ", 6),
        ("a ) ", 2),
        ("(a(+)b", 6),
        ("X.a", 1),
        ("e c", 2),
        ("\u{e9}", 0),
    ] {
        assert_eq!(numbers(text), (22, at), "{text}");
    }
}

/// The first variable that is unbound, or under no prefix within its rec. A form comes before it, wherever it is.
#[test]
fn variables_at_fault() {
    for (text, number, at) in [
        ("X", 23, 0),
        ("a.X", 23, 2),
        ("rec X.X", 23, 6),
        ("rec X.(a+X)", 23, 9),
        ("rec X.(a.X(+)rec Y.(b.Y+X))", 23, 24),
        ("rec X.rec Y.a.(X+Y)", 0, 0),
        ("rec X.a.rec Y.Y", 23, 14),
        ("rec X.a.Y", 23, 8),
        ("(rec X.a.X)+b.X", 23, 14),
        ("rec X.a.X + X + Y", 23, 12),
        ("rec X.a.(rec Y.b.(X+Y+Z))+Z", 23, 22),
        ("a.X+", 22, 4),
        ("X+q", 22, 2),
    ] {
        assert_eq!(numbers(text), (number, at), "{text}");
    }
}

#[test]
fn states_at_their_limit() {
    let chain = |count: usize| "a.".repeat(count) + "0";
    // Each chain has its own places, but for the end.
    let chains = |counts: &[usize]| {
        let begun: Vec<String> =
            actions().iter().zip(counts).map(|(action, count)| format!("{action}.{}", chain(*count))).collect();
        begun.join("+")
    };
    assert_eq!(states(&chains(&[15, 15, 15, 15, 2])), 64);
    assert_eq!(numbers(&chains(&[15, 15, 15, 15, 3])), (19, 0));
    assert_eq!(numbers(&chains(&[15, 15, 15, 15, 15])), (19, 0));
}

/// Nine ready sets in a state are too many, but too many states come first, whichever of them it is.
#[test]
fn refusals_in_order() {
    let ready = |count: usize| {
        let masks = ["0", "a", "b", "a+b", "c", "a+c", "b+c", "a+b+c", "d"];
        masks[..count].join("(+)")
    };
    assert_eq!(number(&ready(8)), 0);
    assert_eq!(numbers(&ready(9)), (20, 0));
    assert_eq!(number(&format!("e.({})", ready(8))), 0);
    assert_eq!(number(&format!("e.({})", ready(9))), 20);
    assert_eq!(number(&format!("e.({})+e.d", ready(8))), 20);
    assert_eq!(number(&format!("e.({})+e.(a+c)", ready(8))), 0);
    let many = |count| format!("{}(+)!a.{}0", ready(9), ["a.", "b.", "c.", "d."][..count].join(""));
    assert_eq!(number(&many(4)), 20);
    let long = |first: &str| {
        let chains: Vec<String> = ('a'..='e').map(|name| format!("!{name}.{}0", "a.".repeat(15))).collect();
        format!("{first}{}", chains.join("+"))
    };
    assert_eq!(number(&long("")), 19);
    assert_eq!(number(&long(&format!("{}(+)", ready(9)))), 19);
    assert_eq!(number(&long(&format!("X+{}(+)", ready(9)))), 23);
    assert_eq!(number(&long(&format!("X+{}(+)(+)", ready(9)))), 22);
    assert_eq!(answer_in(0, &ready(9)).0.number, 20);
    assert_eq!(answer_in(0, &ready(8)).0.number, 13);
}

/// A part may have every ready set there is while the state has few.
#[test]
fn parts_with_every_ready_set() {
    let every: Vec<String> = actions().iter().map(|action| format!("({action}(+)0)")).collect();
    let (every, all) = (every.join("+"), actions().join("+"));
    let text = format!("{every}+{all}");
    assert_eq!(text.len(), 153);
    reads(&text, &[(&[0x3FFF], &[1; 14]), END]);
    reads(&format!("{all}+{every}"), &[(&[0x3FFF], &[1; 14]), END]);
    reads(&format!("{every}+({all}(+){all})"), &[(&[0x3FFF], &[1; 14]), END]);
    assert_eq!(numbers(&every), (20, 0));
    // The whole but for a, or but for b: with any part of these, three ready sets.
    let but = |one: usize| {
        actions()
            .iter()
            .enumerate()
            .filter(|(action, _)| *action != one)
            .map(|(_, name)| name.clone())
            .collect::<Vec<_>>()
            .join("+")
    };
    let choice = format!("(a(+)0)+(b(+)0)+({}(+){})", but(0), but(1));
    reads(&choice, &[(&[0x3FFD, 0x3FFE, 0x3FFF], &[1; 14]), END]);
    // Behind !g, the sum is of a body with every ready set and of all actions.
    let mut successors = [1; 14];
    successors[13] = 2;
    let state = (&[0x3FFF][..], &successors[..]);
    reads(&format!("{all}+rec X.({every}+!g.(X+{all}))"), &[state, END, (&[0, 0x3FFF], &successors)]);
}

/// Each body is a sum of the one before: with every variable taken for its body each time, the last place has some thirty
/// million actions.
const WIDE_SUMS: &str = "\
recX.(a+a+a+a+a+a+a+a+a+a+a+a+a+a+a+a+a+a.recY.(X+X+X+X+X+X+X+X+X+X+X+X+X+X+X+X+X+a.recX.(Y+Y+Y+Y+Y+\
Y+Y+Y+Y+Y+Y+Y+Y+Y+Y+Y+Y+a.recY.(X+X+X+X+X+X+X+X+X+X+X+X+X+X+X+X+X+X+a.recX.(Y+Y+Y+Y+Y+Y+Y+Y+Y+Y+Y+Y+\
Y+Y+Y+Y+Y+Y+a.(X+X+X+X+X+X+X+X+X+X+X+X+X+X+X+X+X+X))))))";

/// The same where no sum settles what the next may add.
const WIDE_CHOICES: &str = "\
recX.((a(+)b)+(c(+)d)+a.recY.(X+X+X+X+X+X+X+X+X+X+X+X+X+X+X+X+X+X+X+a.recX.(Y+Y+Y+Y+Y+Y+Y+Y+Y+Y+Y+Y+\
Y+Y+Y+Y+Y+Y+Y+a.recY.(X+X+X+X+X+X+X+X+X+X+X+X+X+X+X+X+X+X+X+a.recX.(Y+Y+Y+Y+Y+Y+Y+Y+Y+Y+Y+Y+Y+Y+Y+Y+\
Y+Y+Y+Y+a.(X+X+X+X+X+X+X+X+X+X+X+X+X+X+X+X+X+X+X+X))))))";

/// The slowest for the baseline of all texts that a search came upon.
const WIDE_FAMILIES: &str = "\
recZ.(e+c+!g+!e+recX.(b+(0+0+0(+)(0(+)!c)+!e+0)+(e+0(+)0)+0+(0(+)!c)+0+!b+a.(0+0+recY.(0+(c(+)Z)+X+(\
X+X)+X+X+X+X+(!d(+)X+X+X+!c(+)a+X)+X+0+c.((Z+c(+)(d(+)Y(+)X+X)+Y)+(f(+)Y(+)b+b)+c+(Y+Y+Y(+)g)+(0+(Y+\
(Y(+)Y)+Y(+)0+Y)+X(+)X+Y+Y)+(Y(+)Y(+)Y)+!a)+X)+Z)(+)!g))";

#[test]
fn nested_variables() {
    for text in [WIDE_SUMS, WIDE_CHOICES, WIDE_FAMILIES] {
        assert!((240..=256).contains(&text.len()));
    }
    let may_end: &[u16] = &[0, A];
    reads(
        WIDE_SUMS,
        &[(&[A], &[1]), (may_end, &[2]), (may_end, &[3]), (may_end, &[4]), (may_end, &[5]), (may_end, &[5])],
    );
    // a, b or not, and c or d; then c and d as well, and the end.
    let first: State = (&[5, 7, 9, 11], &[1, 2, 2, 2]);
    let behind: &[u16] = &[0, 5, 7, 9, 11, 13, 15];
    let successors = |next: u8| [next, 2, 2, 2];
    let next = [3, 4, 5, 6, 6].map(successors);
    let mut states = vec![first];
    states.extend(next.iter().map(|next| (behind, &next[..])));
    states.insert(2, END);
    reads(WIDE_CHOICES, &states);
    assert_eq!(numbers(WIDE_FAMILIES), (20, 0));
}
