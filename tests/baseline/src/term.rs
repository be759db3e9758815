//! The term that a text is (document 02, request 7/13), read by descent with the depth that is left:
//!
//! ```text
//! whole ::= sums | whole (+) sums
//! sums  ::= tight | sums + tight
//! tight ::= 0 | V | action | action . tight | rec V . tight | ( whole )
//! ```
//!
//! over the bytes that are no blanks. What may come next is always told by the next byte, and whatever was begun can be
//! ended within the depth that is left. So the reader stops at the first byte at which no derivation can go on.

/// The length of the longest text.
pub const LONGEST_TEXT: usize = 256;

const DEPTH: u8 = 16;
const BLANK: u8 = b' ';

/// A part of a term: a node, or from BODY on the body of a rec, which a variable means.
pub type Part = u16;

pub const BODY: Part = LONGEST_TEXT as Part;

/// Every 0 that is written, and what follows a bare action.
pub const END: Part = 0;

/// As many as there can be: each but the end has a byte of its own, and where there is no other byte, actions and pluses
/// come in turn, so that the length is odd.
pub const MOST_NODES: usize = LONGEST_TEXT;

/// A rec has five bytes of its own.
pub const MOST_RECS: usize = LONGEST_TEXT / 5;

#[derive(Clone, Copy)]
pub enum Node {
    End,
    Action(u8, Part),
    Sum(Part, Part),
    Choice(Part, Part),
}

/// A term. A bracket and a rec are the part that they are around.
pub struct Term {
    pub nodes: [Node; MOST_NODES],
    count: usize,
    bodies: [Part; MOST_RECS],
    recs: u8,
    pub whole: Part,
}

/// What is wrong with a text, and where.
pub enum Wrong {
    /// The first byte at which no derivation can go on, or the end.
    Form(usize),
    /// The first use of a variable that is bound by no rec, or under no prefix within it.
    Variable(usize),
}

impl Term {
    /// Reads a text that is not too long.
    pub fn read(text: &[u8]) -> Result<Term, Wrong> {
        let nodes = [Node::End; MOST_NODES];
        let term = Term { nodes, count: 1, bodies: [END; MOST_RECS], recs: 0, whole: END };
        let mut reader = Reader { text, at: 0, term, bound: [None; 3], prefixes: 0, loose: None };
        reader.skip_blanks();
        match reader.whole(DEPTH) {
            Some(whole) if reader.at == text.len() => reader.term.whole = whole,
            _ => return Err(Wrong::Form(reader.at)),
        }
        match reader.loose {
            Some(at) => Err(Wrong::Variable(at)),
            None => Ok(reader.term),
        }
    }

    /// The rec whose body a part is, if it is one. A body that is a variable is another rec's, further out.
    #[inline]
    pub fn rec(&self, part: Part) -> Option<u8> {
        let mut rec = part.checked_sub(BODY)?;
        while let Some(outer) = self.bodies[usize::from(rec)].checked_sub(BODY) {
            rec = outer;
        }
        Some(rec as u8)
    }

    /// The node that a part means.
    #[inline]
    pub fn node(&self, part: Part) -> u8 {
        match self.rec(part) {
            Some(rec) => self.bodies[usize::from(rec)] as u8,
            None => part as u8,
        }
    }
}

/// A rec that binds a variable, and how many prefixes are over it.
#[derive(Clone, Copy)]
struct Bound {
    rec: u8,
    prefixes: u8,
}

struct Reader<'a> {
    text: &'a [u8],
    /// The next byte that is no blank, or the end.
    at: usize,
    term: Term,
    /// What binds X, Y and Z here.
    bound: [Option<Bound>; 3],
    prefixes: u8,
    loose: Option<usize>,
}

impl Reader<'_> {
    #[inline]
    fn skip_blanks(&mut self) {
        while self.next() == Some(BLANK) {
            self.at += 1;
        }
    }

    #[inline]
    fn next(&self) -> Option<u8> {
        self.text.get(self.at).copied()
    }

    #[inline]
    fn pass(&mut self) {
        self.at += 1;
        self.skip_blanks();
    }

    /// Whether the next byte is this one, which is then passed.
    #[inline]
    fn takes(&mut self, byte: u8) -> bool {
        let found = self.next() == Some(byte);
        if found {
            self.pass();
        }
        found
    }

    #[inline]
    fn expect(&mut self, bytes: &[u8]) -> Option<()> {
        bytes.iter().all(|byte| self.takes(*byte)).then_some(())
    }

    /// How far the next byte is behind the first of so many, which is then passed.
    #[inline]
    fn one_of(&mut self, first: u8, count: u8) -> Option<u8> {
        let place = self.next()?.checked_sub(first).filter(|place| *place < count)?;
        self.pass();
        Some(place)
    }

    #[inline]
    fn add(&mut self, node: Node) -> Part {
        let part = self.term.count;
        self.term.nodes[part] = node;
        self.term.count += 1;
        part as Part
    }

    /// Behind a part, an opening bracket can only begin an internal choice.
    fn whole(&mut self, left: u8) -> Option<Part> {
        let mut part = self.sums(left)?;
        while self.takes(b'(') {
            self.expect(b"+)")?;
            let other = self.sums(left)?;
            part = self.add(Node::Choice(part, other));
        }
        Some(part)
    }

    fn sums(&mut self, left: u8) -> Option<Part> {
        let mut part = self.tight(left)?;
        while self.takes(b'+') {
            let other = self.tight(left)?;
            part = self.add(Node::Sum(part, other));
        }
        Some(part)
    }

    /// A part that fits in the depth that is left; nothing if there is none, and then the next byte is at fault.
    fn tight(&mut self, left: u8) -> Option<Part> {
        match self.next()? {
            b'0' => {
                self.pass();
                return Some(END);
            }
            b'X'..=b'Z' => return self.variable(),
            _ => {}
        }
        let left = left.checked_sub(1)?;
        match self.next()? {
            b'a'..=b'g' => self.action(0, left),
            b'!' => {
                self.pass();
                self.action(7, left)
            }
            b'r' => {
                self.expect(b"rec")?;
                self.rec(left)
            }
            b'(' => {
                self.pass();
                let part = self.whole(left)?;
                self.expect(b")")?;
                Some(part)
            }
            _ => None,
        }
    }

    fn variable(&mut self) -> Option<Part> {
        let at = self.at;
        let place = self.one_of(b'X', 3)?;
        match self.bound[usize::from(place)] {
            Some(Bound { rec, prefixes }) if prefixes < self.prefixes => Some(BODY + Part::from(rec)),
            _ => {
                self.loose.get_or_insert(at);
                Some(END)
            }
        }
    }

    /// The rest of an action of which it is known whether it takes or sends, and what follows it.
    fn action(&mut self, first: u8, left: u8) -> Option<Part> {
        let action = first + self.one_of(b'a', 7)?;
        let mut behind = END;
        if self.takes(b'.') {
            self.prefixes += 1;
            behind = self.tight(left)?;
            self.prefixes -= 1;
        }
        Some(self.add(Node::Action(action, behind)))
    }

    /// The rest of a rec, whose variable is bound in its body alone.
    fn rec(&mut self, left: u8) -> Option<Part> {
        let place = usize::from(self.one_of(b'X', 3)?);
        self.expect(b".")?;
        let rec = self.term.recs;
        self.term.recs += 1;
        let outer = self.bound[place].replace(Bound { rec, prefixes: self.prefixes });
        let body = self.tight(left)?;
        self.bound[place] = outer;
        self.term.bodies[usize::from(rec)] = body;
        Some(body)
    }
}
