//! Tables, terms and patterns drawn from a seed, and damage to them.

use crate::X;
use shuuxideg::Pair;

/// Numbers that are the same on every machine (xorshift64*).
pub struct Draw(u64);

impl Draw {
    pub fn new(seed: u64) -> Self {
        Draw(seed.wrapping_mul(0x9e37_79b9_7f4a_7c15) | 1)
    }

    pub fn below(&mut self, n: usize) -> usize {
        self.0 ^= self.0 >> 12;
        self.0 ^= self.0 << 25;
        self.0 ^= self.0 >> 27;
        ((self.0.wrapping_mul(0x2545_f491_4f6c_dd1d) >> 33) as usize) % n
    }

    pub fn chance(&mut self, hundredths: usize) -> bool {
        self.below(100) < hundredths
    }

    pub fn one<T: Copy>(&mut self, choices: &[T]) -> T {
        choices[self.below(choices.len())]
    }

    pub fn node(&mut self) -> u16 {
        let any = self.below(65536) as u16;
        let drawn = [any, 0, 1, 7, 8, 255, 256, 300, 511, 512, 32767, X, X + 31, X + 32, 65535];
        self.one(&drawn)
    }

    fn degree(&mut self) -> u16 {
        if self.chance(70) {
            self.one(&[1, 250, 400, 500, 600, 700, 800, 998, 999])
        } else {
            1 + self.below(999) as u16
        }
    }
}

/// A sound table.
pub struct Drawn {
    pub arities: Vec<u8>,
    pub pairs: Vec<Pair>,
    by_arity: Vec<Vec<u16>>,
    near: Vec<Vec<u16>>,
}

/// The file of these arities and pairs, whether they are sound or not.
pub fn file_of(arities: &[u8], pairs: &[Pair]) -> Vec<u8> {
    let (symbols, count) = (arities.len(), pairs.len());
    let numbers = [symbols, count, 10, 10 + symbols, 10 + symbols + 6 * count];
    let mut file: Vec<u8> = numbers.iter().flat_map(|&n| (n as u16).to_le_bytes()).collect();
    file.extend_from_slice(arities);
    for pair in pairs {
        file.extend([pair.lower, pair.higher, pair.degree].iter().flat_map(|n| n.to_le_bytes()));
    }
    file
}

impl Drawn {
    pub fn new(arities: Vec<u8>, pairs: Vec<Pair>) -> Self {
        let mut by_arity = vec![Vec::new(); 9];
        for (symbol, &arity) in arities.iter().enumerate() {
            by_arity[usize::from(arity)].push(symbol as u16);
        }
        let mut near = vec![Vec::new(); arities.len()];
        for pair in &pairs {
            near[usize::from(pair.lower)].push(pair.higher);
            near[usize::from(pair.higher)].push(pair.lower);
        }
        Drawn { arities, pairs, by_arity, near }
    }

    pub fn t() -> Self {
        let pairs = crate::T_PAIRS.iter().map(|&(lower, higher, degree)| Pair { lower, higher, degree }).collect();
        Drawn::new(crate::T_ARITIES.to_vec(), pairs)
    }

    /// A table of so many symbols, in which about so many hundredths of the pairs that may be listed are.
    pub fn table(draw: &mut Draw, symbols: usize, hundredths: usize) -> Self {
        let wide = draw.chance(20);
        let mut arities: Vec<u8> = (0..symbols)
            .map(|_| if wide { draw.below(9) as u8 } else { draw.one(&[0, 0, 0, 1, 1, 2, 2, 3]) })
            .collect();
        if draw.chance(95) {
            arities[draw.below(symbols)] = 0;
        }
        let mut pairs = Vec::new();
        for lower in 0..symbols as u16 {
            for higher in lower + 1..symbols as u16 {
                let listed = arities[usize::from(lower)] == arities[usize::from(higher)] && draw.chance(hundredths);
                if listed && pairs.len() < 8192 {
                    pairs.push(Pair { lower, higher, degree: draw.degree() });
                }
            }
        }
        Drawn::new(arities, pairs)
    }

    pub fn small(draw: &mut Draw) -> Self {
        let (symbols, hundredths) = (1 + draw.below(10), draw.one(&[0, 30, 75, 100]));
        Drawn::table(draw, symbols, hundredths)
    }

    /// One of the sizes about which something changes.
    pub fn large(draw: &mut Draw) -> Self {
        let symbols = draw.one(&[15, 16, 17, 63, 64, 65, 127, 128, 129, 200, 255, 256, 257, 320, 511, 512]);
        let hundredths = draw.one(&[2, 10, 30, 80]);
        Drawn::table(draw, symbols, hundredths)
    }

    /// A table of constants, but for two symbols, and as many pairs of them as there can be, or half of these.
    pub fn wide(draw: &mut Draw, symbols: usize) -> Self {
        let mut arities = vec![0; symbols];
        arities[draw.below(symbols)] = 8;
        arities[draw.below(symbols)] = 2;
        let hundredths = draw.one(&[50, 100]);
        let constants: Vec<u16> = (0..symbols as u16).filter(|&symbol| arities[usize::from(symbol)] == 0).collect();
        let mut pairs = Vec::new();
        for (index, &lower) in constants.iter().enumerate() {
            for &higher in &constants[index + 1..] {
                if pairs.len() < 8192 && draw.chance(hundredths) {
                    pairs.push(Pair { lower, higher, degree: draw.degree() });
                }
            }
        }
        Drawn::new(arities, pairs)
    }

    /// The table with some pairs added and some degrees raised.
    pub fn richer(&self, draw: &mut Draw) -> Self {
        let symbols = self.arities.len() as u16;
        let (mut listed, mut pairs) = (self.pairs.iter().peekable(), Vec::new());
        let mut room = 8192 - self.pairs.len();
        for (lower, higher) in (0..symbols).flat_map(|lower| (lower + 1..symbols).map(move |higher| (lower, higher))) {
            let alike = self.arities[usize::from(lower)] == self.arities[usize::from(higher)];
            if let Some(&pair) = listed.next_if(|pair| (pair.lower, pair.higher) == (lower, higher)) {
                let degree = if draw.chance(30) { pair.degree.max(draw.degree()) } else { pair.degree };
                pairs.push(Pair { degree, ..pair });
            } else if alike && room > 0 && draw.chance(30) {
                room -= 1;
                pairs.push(Pair { lower, higher, degree: draw.degree() });
            }
        }
        Drawn::new(self.arities.clone(), pairs)
    }

    pub fn file(&self) -> Vec<u8> {
        file_of(&self.arities, &self.pairs)
    }

    fn with_arity(&self, draw: &mut Draw, arity: usize) -> u16 {
        let choices = &self.by_arity[arity];
        if choices.is_empty() {
            draw.below(self.arities.len()) as u16
        } else {
            draw.one(choices)
        }
    }

    /// Appends a term of about so many nodes, with what leaf gives where a constant may stand.
    pub fn grow(
        &self,
        draw: &mut Draw,
        out: &mut Vec<u16>,
        nodes: usize,
        depth: usize,
        leaf: &mut dyn FnMut(&mut Draw) -> u16,
    ) {
        let arities: Vec<usize> = (1..9).filter(|&n| n < nodes && !self.by_arity[n].is_empty()).collect();
        if depth <= 1 || arities.is_empty() {
            let node = leaf(draw);
            out.push(node);
            return;
        }
        let arity = draw.one(&arities);
        out.push(self.with_arity(draw, arity));
        let mut left = nodes - 1;
        for argument in 0..arity {
            let others = arity - argument - 1;
            let share = if others == 0 { left } else { 1 + draw.below(2 * left / (others + 1)) };
            let share = share.min(left - others);
            self.grow(draw, out, share, depth - 1, leaf);
            left -= share;
        }
    }

    pub fn heading(&self, draw: &mut Draw, nodes: usize) -> Vec<u16> {
        let mut out = Vec::new();
        self.grow(draw, &mut out, nodes, 64, &mut |draw| self.with_arity(draw, 0));
        out
    }

    /// The list with some symbols exchanged for near ones, and a few for others of their arity.
    pub fn stray(&self, draw: &mut Draw, nodes: &[u16], hundredths: usize, far: usize) -> Vec<u16> {
        let other = |node: &u16| match self.near.get(usize::from(*node)) {
            Some(_) if draw.below(1000) < far => {
                let arity = self.arities[usize::from(*node)];
                self.with_arity(draw, usize::from(arity))
            }
            Some(near) if !near.is_empty() && draw.chance(hundredths) => draw.one(near),
            _ => *node,
        };
        nodes.iter().map(other).collect()
    }

    /// A pattern, and a heading that it was filled to, more or less.
    pub fn question(&self, draw: &mut Draw, pattern_nodes: usize, form_nodes: usize) -> (Vec<u16>, Vec<u16>) {
        let count = 1 + draw.below(4);
        let variables: Vec<u16> = (0..count).map(|_| X + draw.below(32) as u16).collect();
        let forms: Vec<Vec<u16>> = variables
            .iter()
            .map(|_| {
                let nodes = 1 + draw.below(form_nodes);
                self.heading(draw, nodes)
            })
            .collect();
        let often = draw.one(&[10, 70, 100]);
        let mut pattern = Vec::new();
        self.grow(draw, &mut pattern, pattern_nodes, 64, &mut |draw| {
            if draw.chance(often) {
                draw.one(&variables)
            } else {
                self.with_arity(draw, 0)
            }
        });
        let (hundredths, far) = (draw.one(&[0, 10, 40, 100]), draw.one(&[0, 0, 0, 5, 100]));
        let mut heading = Vec::new();
        for node in &pattern {
            match variables.iter().position(|variable| variable == node) {
                Some(index) => heading.extend(self.stray(draw, &forms[index], hundredths, far)),
                None => heading.extend(self.stray(draw, &[*node], hundredths, far)),
            }
        }
        (pattern, heading)
    }
}

pub fn damaged(draw: &mut Draw, nodes: &[u16]) -> Vec<u16> {
    let mut nodes = nodes.to_vec();
    let at = draw.below(nodes.len() + 1);
    match draw.below(4) {
        0 => nodes.truncate(at),
        1 => {
            let node = draw.node();
            nodes.insert(at, node);
        }
        2 if at < nodes.len() => {
            nodes.remove(at);
        }
        _ if at < nodes.len() => nodes[at] = draw.node(),
        _ => nodes.push(X),
    }
    nodes
}

pub fn damaged_file(draw: &mut Draw, file: &[u8]) -> Vec<u8> {
    let mut file = file.to_vec();
    match draw.below(6) {
        0 => file.truncate(draw.below(file.len())),
        1 => {
            let more = 1 + draw.below(8);
            file.resize(file.len() + more, 1);
        }
        2 => file[draw.below(10)] = draw.one(&[0, 1, 9, 10, 11, 255]),
        _ => {
            let at = draw.below(file.len());
            let (byte, bit) = (draw.below(256) as u8, 1 << draw.below(8));
            file[at] = if draw.chance(50) { byte } else { file[at] ^ bit };
        }
    }
    file
}

/// One pair changed so that it may no longer be sound.
pub fn damaged_pairs(draw: &mut Draw, symbols: usize, pairs: &[Pair]) -> Vec<Pair> {
    let mut pairs = pairs.to_vec();
    if pairs.is_empty() {
        return vec![Pair { lower: 0, higher: 1, degree: 500 }];
    }
    let (at, other) = (draw.below(pairs.len()), draw.below(pairs.len()));
    let any = draw.below(symbols) as u16;
    match draw.below(8) {
        0 => pairs[at].degree = draw.one(&[0, 1, 999, 1000, 1001, 65535]),
        1 => pairs[at].higher = draw.one(&[symbols as u16, 256, 512, 65535]),
        2 => pairs[at].lower = pairs[at].higher,
        3 => {
            let pair = pairs[at];
            pairs[at] = Pair { lower: pair.higher, higher: pair.lower, ..pair };
        }
        4 => pairs.swap(at, other),
        5 => pairs.insert(at, pairs[other]),
        6 => pairs[at].lower = any,
        _ => pairs[at].higher = any,
    }
    pairs
}

/// The pairs with each number of each in turn changed to others, most of them no longer sound.
pub fn each_changed(symbols: usize, pairs: &[Pair], mut ask: impl FnMut(&[Pair])) {
    let mut changed = pairs.to_vec();
    let others = |n: u16| [n.wrapping_sub(1), n + 1, 0, symbols as u16 - 1, symbols as u16, 999, 1000, 32768, 65535];
    for (at, &pair) in pairs.iter().enumerate() {
        let Pair { lower, higher, degree } = pair;
        let with_lower = others(lower).map(|lower| Pair { lower, ..pair });
        let with_higher = others(higher).map(|higher| Pair { higher, ..pair });
        let with_degree = others(degree).map(|degree| Pair { degree, ..pair });
        for other in [with_lower, with_higher, with_degree].concat() {
            changed[at] = other;
            ask(&changed);
        }
        changed[at] = pair;
    }
}
