//! The walk over all runs of a plan with at most 64 visits, in order: visit by visit, back to the last choice, and on. What is left to run hangs together in
//! links that the ways on share; each knows the least number of visits to the end, so no way is gone in vain.

use std::io;

use crate::memory::{Head, Leaf, CALL, FUNCTIONS, IF, LEAF, LEAVES, LOOP};
use crate::print::{put_number, Lines};

/// The most visits of a run that is printed.
const SHORT: u32 = 64;

/// Least numbers of visits are held here.
const MANY: u32 = SHORT + 1;

/// A part of what is left: the forms from a leaf to the end of its row; or a loop whose condition comes next.
#[derive(Clone, Copy)]
struct Link {
    at: u16,
    /// The end of the row; of a loop the leaf itself.
    end: u16,
    /// How often the loop can go round still.
    rounds: u16,
    /// What is left behind it; 0 for nothing.
    behind: u16,
    /// The least number of visits to the end of all.
    least: u32,
}

const NOTHING: Link = Link {
    at: 0,
    end: 0,
    rounds: 0,
    behind: 0,
    least: 0,
};

pub struct Walk<'a> {
    row: &'a [Leaf],
    head: &'a Head,
    lines: &'a mut Lines,
    /// The least number of visits from a leaf to the end of its row of forms.
    rest: [u32; LEAVES],
    /// The same of each function.
    functions: [u32; FUNCTIONS],
    links: Vec<Link>,
    /// The numbers of the leaves that were visited, each with a space behind it.
    text: Vec<u8>,
}

impl<'a> Walk<'a> {
    pub fn new(row: &'a [Leaf], head: &'a Head, lines: &'a mut Lines) -> Walk<'a> {
        let mut walk = Walk {
            row,
            head,
            lines,
            rest: [0; LEAVES],
            functions: [0; FUNCTIONS],
            links: vec![NOTHING],
            text: Vec::new(),
        };
        for function in 0..head.functions {
            let (from, to) = walk.span(function);
            walk.functions[function] = walk.measure(from, to);
        }
        walk
    }

    fn span(&self, function: usize) -> (u16, u16) {
        let bounds = &self.head.bounds;
        (bounds[function] as u16, bounds[function + 1] as u16)
    }

    fn leaf(&self, at: u16) -> &'a Leaf {
        &self.row[usize::from(at)]
    }

    /// The least number of visits of the forms from one leaf to another, noted for each of them.
    fn measure(&mut self, from: u16, to: u16) -> u32 {
        if from == to {
            return 0;
        }
        let leaf = self.leaf(from);
        let (other, after) = (leaf.other as u16, leaf.after as u16);
        let own = match leaf.kind {
            LEAF => 1,
            CALL => 1 + self.functions[leaf.detail as usize],
            LOOP => {
                self.measure(from + 1, after);
                1
            }
            _ => {
                1 + self
                    .measure(from + 1, other)
                    .min(self.measure(other, after))
            }
        };
        let least = (own + self.measure(after, to)).min(MANY);
        self.rest[usize::from(from)] = least;
        least
    }

    fn link(&mut self, link: Link) -> u16 {
        self.links.push(link);
        (self.links.len() - 1) as u16
    }

    /// What is left where the forms of a row stand before something.
    fn row_before(&mut self, at: u16, end: u16, behind: u16) -> u16 {
        if at == end {
            return behind;
        }
        let least = self.rest[usize::from(at)] + self.links[usize::from(behind)].least;
        self.link(Link {
            at,
            end,
            rounds: 0,
            behind,
            least,
        })
    }

    /// What is left where a loop goes round once more.
    fn round(&mut self, at: u16, rounds: u16, behind: u16) -> u16 {
        let least = 1 + self.links[usize::from(behind)].least;
        let again = self.link(Link {
            at,
            end: at,
            rounds,
            behind,
            least,
        });
        self.row_before(at + 1, self.leaf(at).after as u16, again)
    }

    /// What can be left behind the visit of a link's leaf: one way, or two.
    fn ways(&mut self, link: Link) -> (u16, Option<u16>) {
        let leaf = self.leaf(link.at);
        let (other, after) = (leaf.other as u16, leaf.after as u16);
        let again = link.end == link.at;
        let behind = match again {
            true => link.behind,
            false => self.row_before(after, link.end, link.behind),
        };
        match leaf.kind {
            CALL => {
                let (from, to) = self.span(leaf.detail as usize);
                (self.row_before(from, to, behind), None)
            }
            LOOP => {
                let rounds = if again {
                    link.rounds
                } else {
                    leaf.detail as u16
                };
                let round = (rounds > 0).then(|| self.round(link.at, rounds - 1, behind));
                (behind, round)
            }
            IF => {
                let by_then = self.row_before(link.at + 1, other, behind);
                let by_else = self.row_before(other, after, behind);
                // Of two empty parts the ways are the same.
                (by_then, (by_then != by_else).then_some(by_else))
            }
            _ => (behind, None),
        }
    }

    /// What comes first of two ways that differ: the end, or the lower leaf.
    fn opening(&self, left: u16) -> u32 {
        match left {
            0 => 0,
            _ => 1 + u32::from(self.links[usize::from(left)].at),
        }
    }

    /// Prints all runs that go on by what is left, where so many visits were made, with these sums.
    fn print_from(&mut self, left: u16, visits: u32, sums: (u64, u64)) -> io::Result<()> {
        if left == 0 {
            return self.lines.run(&self.text, sums.0, sums.1);
        }
        let (links, length) = (self.links.len(), self.text.len());
        let link = self.links[usize::from(left)];
        let leaf = self.leaf(link.at);
        put_number(&mut self.text, link.at.into());
        self.text.push(b' ');
        let (mut first, mut second) = self.ways(link);
        if let Some(other) = second {
            if self.opening(other) < self.opening(first) {
                (first, second) = (other, Some(first));
            }
        }
        let (visits, sums) = (visits + 1, (sums.0 + leaf.isolated, sums.1 + leaf.max_load));
        for way in [Some(first), second].into_iter().flatten() {
            if visits + self.links[usize::from(way)].least <= SHORT {
                self.print_from(way, visits, sums)?;
            }
        }
        self.links.truncate(links);
        self.text.truncate(length);
        Ok(())
    }

    /// Prints all runs.
    pub fn print(&mut self) -> io::Result<()> {
        let (from, to) = self.span(self.head.functions - 1);
        let start = self.row_before(from, to, 0);
        match self.links[usize::from(start)].least <= SHORT {
            true => self.print_from(start, 0, (0, 0)),
            false => Ok(()),
        }
    }
}
