//! Questions about wide sets: every constant that can face a variable is near to all of the same many others, which so are shared at each
//! position of a variable, however often it stands.

use crate::build::{Draw, Table};
use crate::questions::{Question, CUT};
use shuuxideg::{Pair, MAX_NODES, VARIABLE};

/// Two symbols hold the constants: one of eight arguments, as many as there can be, and one of seven, with which a term can have 896 leaves
/// in 1,024 nodes.
const EIGHT: u16 = 0;
const SEVEN: u16 = 1;
const ARGUMENTS: [usize; 2] = [8, 7];

/// How near the constants that face variables are to the shared ones, and which of them faces what.
#[derive(Clone, Copy, PartialEq)]
pub enum Degrees {
    /// Both are drawn, degrees from the cut up.
    Drawn,
    /// So that no walk over the members of a set can end early. From position to position the best member falls or stays as good, and it
    /// is the last one. And no shared member comes down to the cut, though each constant that faces a variable has a near one that does:
    /// of two such, one is near to every second of these constants, the other to those between, and both kinds stand at each position.
    Falling,
}

/// Where the constants stand in the table.
#[derive(Clone, Copy, PartialEq)]
pub enum Stand {
    /// Those that can face variables side by side, and behind them those they are near to.
    SideBySide,
    /// Those that can face variables 32 apart, as far as they can: the proved match keeps the degrees of 32 symbols, and then they share few
    /// places.
    Apart,
    /// As side by side, but of those they are near to one in eight, so that a set is spread over all its words.
    Sparse,
}

/// A table of wide sets.
#[derive(Clone, Copy)]
pub struct Wide {
    pub symbols: usize,
    /// How many constants can face variables.
    pub faced: usize,
    /// How many others each of these is near to.
    pub shared: usize,
    pub degrees: Degrees,
    pub stand: Stand,
}

impl Wide {
    /// 256 symbols, all used.
    pub const OF_256: Wide = Wide { symbols: 256, faced: 30, shared: 224, degrees: Degrees::Drawn, stand: Stand::SideBySide };
    /// 512 symbols, of which 14 are not used.
    pub const OF_512: Wide = Wide { symbols: 512, faced: 16, shared: 480, degrees: Degrees::Drawn, stand: Stand::SideBySide };

    fn table(&self) -> Table {
        let mut draw = Draw::new(224);
        let mut arities = vec![0; self.symbols];
        arities[usize::from(EIGHT)] = 8;
        arities[usize::from(SEVEN)] = 7;
        let falling = self.degrees == Degrees::Falling;
        let faced: Vec<u16> = (0..self.faced).map(|faced| self.symbol(faced)).collect();
        let sparse = self.stand == Stand::Sparse;
        let mut others = (ARGUMENTS.len() as u16..self.symbols as u16).filter(|symbol| !faced.contains(symbol));
        let low: Vec<u16> = others.by_ref().take(if falling { 2 } else { 0 }).collect();
        let shared: Vec<u16> = others.filter(|symbol| !sparse || symbol % 8 == 7).take(self.shared).collect();
        assert_eq!(shared.len(), self.shared);
        let pair = |a: u16, b: u16, degree| Pair { lower: a.min(b), higher: a.max(b), degree };
        let mut pairs = Vec::new();
        for (index, &symbol) in faced.iter().enumerate() {
            if falling {
                pairs.push(pair(symbol, low[index % 2], CUT));
            }
            for (member, &other) in shared.iter().enumerate() {
                let degree = if !falling {
                    CUT + draw.below(1000 - usize::from(CUT)) as u16
                } else if member + 1 < self.shared {
                    998 - index as u16
                } else {
                    999 - index as u16
                };
                pairs.push(pair(symbol, other, degree));
            }
        }
        pairs.sort_by_key(|pair| (pair.lower, pair.higher));
        Table::new(arities, pairs)
    }

    fn symbol(&self, faced: usize) -> u16 {
        let stretches = self.symbols / 32;
        let apart = self.stand == Stand::Apart;
        let behind = if apart { faced / stretches + 32 * (faced % stretches) } else { faced };
        (ARGUMENTS.len() + behind) as u16
    }

    /// Which constant faces a variable where it stands so many times: at one of so many leaves of what faces it there.
    fn faces(&self, draw: &mut Draw, (place, times): (usize, usize), (leaf, leaves): (usize, usize)) -> u16 {
        let different = times.min(self.faced);
        self.symbol(match self.degrees {
            Degrees::Drawn => draw.below(self.faced),
            Degrees::Falling => leaf * (self.faced - different) / leaves + place % different,
        })
    }

    /// One variable so many times, at most eight, each time faced by a term with so many inner nodes.
    pub fn few_times(&self, times: usize, inner: usize) -> Question {
        let (table, mut draw) = (self.table(), Draw::new(505));
        let leaves = leaves(EIGHT, inner);
        let (mut pattern, mut heading) = (vec![EIGHT], vec![EIGHT]);
        for place in 0..times {
            pattern.push(VARIABLE);
            let mut faces = (0..leaves).map(|leaf| self.faces(&mut draw, (place, times), (leaf, leaves)));
            broad(&mut heading, EIGHT, inner, &mut faces);
        }
        let others = vec![self.symbol(0); ARGUMENTS[usize::from(EIGHT)] - times];
        pattern.extend(&others);
        heading.extend(&others);
        assert!(heading.len() <= MAX_NODES);
        Question { table, pattern, heading, cut: CUT, refused: None }
    }

    /// One variable 890 times, each time faced by one constant.
    pub fn many_times(&self) -> Question {
        self.at_leaves(1, EIGHT, 127)
    }

    /// So many variables, 28 times each, each time faced by one constant.
    pub fn by_turns(&self, variables: usize) -> Question {
        self.at_leaves(variables, SEVEN, 4 * variables)
    }

    /// A pattern with so many inner nodes, and the variables by turns at its leaves.
    fn at_leaves(&self, variables: usize, head: u16, inner: usize) -> Question {
        let (table, mut draw) = (self.table(), Draw::new(896));
        let leaves = leaves(head, inner);
        let times = leaves / variables;
        let mut places = (0..leaves).map(|leaf| VARIABLE + (leaf % variables) as u16);
        let mut faces = (0..leaves).map(|leaf| self.faces(&mut draw, (leaf / variables, times), (0, 1)));
        let (mut pattern, mut heading) = (Vec::new(), Vec::new());
        broad(&mut pattern, head, inner, &mut places);
        broad(&mut heading, head, inner, &mut faces);
        assert!(heading.len() <= MAX_NODES);
        Question { table, pattern, heading, cut: CUT, refused: None }
    }
}

/// How many leaves a term with so many inner nodes has: each of them brings one node less than it has arguments.
fn leaves(head: u16, inner: usize) -> usize {
    ARGUMENTS[usize::from(head)] + (ARGUMENTS[usize::from(EIGHT)] - 1) * (inner - 1)
}

/// Appends a term with so many inner nodes, spread evenly, and these leaves.
fn broad(out: &mut Vec<u16>, head: u16, inner: usize, leaves: &mut dyn Iterator<Item = u16>) {
    if inner == 0 {
        out.extend(leaves.next());
        return;
    }
    out.push(head);
    let arguments = ARGUMENTS[usize::from(head)];
    for argument in 0..arguments {
        broad(out, EIGHT, (inner - 1 + argument) / arguments, leaves);
    }
}
