//! Tables and terms for the workloads, the same in every run.

use shuuxideg::Pair;

pub struct Draw(u64);

impl Draw {
    pub fn new(seed: u64) -> Self {
        Draw(seed)
    }

    pub fn below(&mut self, n: usize) -> usize {
        self.0 ^= self.0 << 13;
        self.0 ^= self.0 >> 7;
        self.0 ^= self.0 << 17;
        (self.0 >> 20) as usize % n
    }
}

pub struct Table {
    pub arities: Vec<u8>,
    pub pairs: Vec<Pair>,
    pub file: Vec<u8>,
    /// By two symbols, so that the terms can be drawn without a search.
    degrees: Vec<Vec<u16>>,
}

impl Table {
    pub fn new(arities: Vec<u8>, pairs: Vec<Pair>) -> Self {
        let mut file = vec![0; 10 + arities.len() + 6 * pairs.len()];
        shuuxideg::plain::write_table(&arities, &pairs, &mut file).expect("a sound table");
        let mut degrees = vec![vec![0; arities.len()]; arities.len()];
        for pair in &pairs {
            degrees[usize::from(pair.lower)][usize::from(pair.higher)] = pair.degree;
            degrees[usize::from(pair.higher)][usize::from(pair.lower)] = pair.degree;
        }
        Table { arities, pairs, file, degrees }
    }

    /// Table T of the examples.
    pub fn listing() -> Self {
        Table::listing_among(8)
    }

    /// Table T among further constants, so many symbols in all; each of these is near to the next.
    pub fn listing_among(symbols: u16) -> Self {
        let pair = |lower, higher, degree| Pair { lower, higher, degree };
        let names = [pair(1, 2, 500), pair(1, 3, 600), pair(1, 4, 700), pair(2, 3, 600), pair(2, 4, 800)];
        let dates = [pair(5, 6, 500), pair(5, 7, 700), pair(6, 7, 800)];
        let further: Vec<Pair> = (9..symbols).map(|symbol| pair(symbol - 1, symbol, 600)).collect();
        let mut arities = vec![2, 1, 1, 1, 1, 0, 0, 0];
        arities.resize(usize::from(symbols), 0);
        Table::new(arities, [&names[..], &dates[..], &further[..]].concat())
    }

    /// 256 symbols: a quarter takes two arguments, an eighth one, the others are constants. Exactly so many of the pairs that may be
    /// listed are, spread evenly over them, with degrees from 1 to 999.
    pub fn of_256_symbols(count: usize) -> Self {
        let mut draw = Draw::new(0x0bad_cafe);
        let arities: Vec<u8> = (0..256).map(|symbol| [2, 0, 0, 1, 2, 0, 0, 0][symbol % 8]).collect();
        let may_be_listed: Vec<(u16, u16)> = (0..256u16)
            .flat_map(|lower| (lower + 1..256).map(move |higher| (lower, higher)))
            .filter(|&(lower, higher)| arities[usize::from(lower)] == arities[usize::from(higher)])
            .collect();
        let mut pairs = Vec::new();
        for (index, &(lower, higher)) in may_be_listed.iter().enumerate() {
            if draw.below(may_be_listed.len() - index) < count - pairs.len() {
                pairs.push(Pair { lower, higher, degree: 1 + draw.below(999) as u16 });
            }
        }
        Table::new(arities, pairs)
    }

    /// The symbols of that symbol's arity, apart from itself, for which this holds of their degree with it; itself if there is none.
    fn other(&self, draw: &mut Draw, symbol: u16, holds: impl Fn(u16) -> bool) -> u16 {
        let alike = |other: &u16| self.arities[usize::from(*other)] == self.arities[usize::from(symbol)];
        let degrees = &self.degrees[usize::from(symbol)];
        let choices: Vec<u16> = (0..self.arities.len() as u16)
            .filter(|other| *other != symbol && alike(other) && holds(degrees[usize::from(*other)]))
            .collect();
        if choices.is_empty() {
            symbol
        } else {
            choices[draw.below(choices.len())]
        }
    }

    /// The list with three of four symbols exchanged for ones that reach the cut with them.
    pub fn stray(&self, draw: &mut Draw, nodes: &[u16], cut: u16) -> Vec<u16> {
        let mut strayed = Vec::new();
        for &node in nodes {
            let stays = draw.below(4) == 0;
            strayed.push(if stays { node } else { self.other(draw, node, |degree| degree >= cut) });
        }
        strayed
    }

    /// A symbol of the same arity that does not reach the cut with that one.
    pub fn far(&self, draw: &mut Draw, symbol: u16, cut: u16) -> u16 {
        self.other(draw, symbol, |degree| degree < cut)
    }

    pub fn symbol(&self, draw: &mut Draw, arity: u8) -> u16 {
        loop {
            let symbol = draw.below(self.arities.len());
            if self.arities[symbol] == arity {
                return symbol as u16;
            }
        }
    }

    /// Appends a tree with that many leaves, in halves, each inner node of two arguments.
    pub fn tree(&self, draw: &mut Draw, out: &mut Vec<u16>, leaves: &[u16]) {
        if leaves.len() == 1 {
            out.push(leaves[0]);
        } else {
            out.push(self.symbol(draw, 2));
            let (left, right) = leaves.split_at(leaves.len() / 2);
            self.tree(draw, out, left);
            self.tree(draw, out, right);
        }
    }

    /// A tree over so many constants.
    pub fn form(&self, draw: &mut Draw, leaves: usize) -> Vec<u16> {
        let constants: Vec<u16> = (0..leaves).map(|_| self.symbol(draw, 0)).collect();
        let mut out = Vec::new();
        self.tree(draw, &mut out, &constants);
        out
    }
}
