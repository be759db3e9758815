//! The ready sets of a term (definition 2.5 of document 000): those of + are all unions of one from each side, those of
//! (+) are the ready sets of either side.

use crate::family::{Counts, Family};
use crate::sheet::{Bits, MOST_READY};
use crate::term::{Node, Part, Term, BODY, MOST_NODES, MOST_RECS};

/// To join a family with one part of a body takes as long as so many unions of two masks do.
const PART: u64 = 50;

/// To join two families by counting takes as long as so many unions do.
const COUNTING: u64 = 40_000;

/// The ready sets of a place, ascending, and how many they are.
pub type Listed = ([u16; MOST_READY as usize], usize);

/// What can be said of a part without its ready sets: the actions in all of them and those in some, and of how many
/// parts it is made. There are none as long as this is not known.
#[derive(Clone, Copy, Default)]
struct Bounds {
    all: u16,
    some: u16,
    parts: u32,
}

/// What is known of a family: actions in all masks, and recs with whose bodies joining it changes nothing. That stays so
/// whatever else it is joined with.
#[derive(Clone, Copy, Default)]
struct Known {
    all: u16,
    settled: u64,
}

impl Known {
    fn of_both(self, other: Known) -> Known {
        Known { all: self.all & other.all, settled: self.settled & other.settled }
    }
}

pub struct Ready<'a> {
    term: &'a Term,
    bounds: [Bounds; MOST_NODES],
    bodies: [Option<Box<Family>>; MOST_RECS],
    counts: Counts,
}

impl Ready<'_> {
    pub fn of(term: &Term) -> Ready<'_> {
        let bounds = [Bounds::default(); MOST_NODES];
        Ready { term, bounds, bodies: [const { None }; MOST_RECS], counts: Counts::nothing() }
    }

    /// The ready sets of a node, or nothing if they are too many.
    pub fn list(&mut self, node: u8) -> Option<Listed> {
        let Bounds { all, some, .. } = self.bounds(node.into());
        if all == some {
            let mut masks = [0; MOST_READY as usize];
            masks[0] = all;
            return Some((masks, 1));
        }
        let mut family = Family::of(0);
        self.join(&mut family, node.into(), Known::default());
        family.at_most()
    }

    fn bounds(&mut self, part: Part) -> Bounds {
        let node = usize::from(self.term.node(part));
        if self.bounds[node].parts == 0 {
            self.bounds[node] = match self.term.nodes[node] {
                Node::End => Bounds { all: 0, some: 0, parts: 1 },
                Node::Action(action, _) => Bounds { all: 1 << action, some: 1 << action, parts: 1 },
                Node::Sum(left, right) => {
                    let (left, right) = (self.bounds(left), self.bounds(right));
                    let parts = left.parts.saturating_add(right.parts);
                    Bounds { all: left.all | right.all, some: left.some | right.some, parts }
                }
                Node::Choice(left, right) => {
                    let (left, right) = (self.bounds(left), self.bounds(right));
                    let parts = left.parts.saturating_add(right.parts).saturating_add(1);
                    Bounds { all: left.all & right.all, some: left.some | right.some, parts }
                }
            };
        }
        self.bounds[node]
    }

    /// Joins a family with a part, and gives what is known of it then. The actions in all ready sets of the part come
    /// first, so that what cannot add to them is passed over.
    fn join(&mut self, family: &mut Family, part: Part, mut known: Known) -> Known {
        let Bounds { all, some, parts } = self.bounds(part);
        Bits((all & !known.all).into()).for_each(|action| family.require(action));
        known.all |= all;
        if some & !known.all == 0 {
            return known;
        }
        if let Some(rec) = self.term.rec(part) {
            return self.join_body(family, rec, parts, known);
        }
        match self.term.nodes[usize::from(part)] {
            Node::Sum(left, right) => {
                let known = self.join(family, left, known);
                self.join(family, right, known)
            }
            Node::Choice(left, right) => {
                let mut other = family.clone();
                let (left, right) = (self.join(family, left, known), self.join(&mut other, right, known));
                family.unite(&other);
                left.of_both(right)
            }
            _ => known,
        }
    }

    /// Joins a family with the body of a rec that is made of so many parts, in the shortest way: mask by mask with the
    /// ready sets of the body, which are kept; part by part; or by counting.
    fn join_body(&mut self, family: &mut Family, rec: u8, parts: u32, mut known: Known) -> Known {
        if known.settled & 1 << rec != 0 {
            return known;
        }
        let node = Part::from(self.term.node(BODY + Part::from(rec)));
        let body = self.bodies[usize::from(rec)].take().unwrap_or_else(|| {
            let mut body = Family::of(0);
            self.join(&mut body, node, Known::default());
            Box::new(body)
        });
        let before = family.clone();
        let (pairs, parts) = ((before.size() * body.size()) as u64, PART * u64::from(parts));
        if pairs <= parts.min(COUNTING) {
            *family = before.paired(&body);
        } else if parts <= COUNTING {
            known = self.join(family, node, known);
        } else {
            *family = before.counted(&body, &mut self.counts);
        }
        self.bodies[usize::from(rec)] = Some(body);
        if family.equals(&before) {
            known.settled |= 1 << rec;
        }
        known
    }
}
