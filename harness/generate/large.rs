//! Large models, to 16,384 triples: plants, deep class chains, transitive links, equal terms, recipes, and mixtures of small ones.
//! A closure should stay within the 65,535 triples of a store; each kind keeps count of what it will bring.

use crate::recipes::{recipes, Cells};
use crate::small::{mixture, Outside};
use crate::{names, word, Model, Random, FIRST};
use model::dictionary::{BLANK_NODE, LITERAL, NAMED_NODE};
use model::{Triple, LOAD_LIMIT};
use std::collections::HashSet;

/// What a closure should come to at most; a few models come out above it, and above the store.
const BUDGET: usize = 56_000;

/// Of equal terms and mixtures so many in a hundred type properties inverse functional, and are outside the original's domain.
const INVERSE: usize = 25;

/// Of mixtures and recipes so many in a hundred have lists that share cells, and improper ones: they are outside too.
const ODD_LISTS: usize = 40;

/// Of `tails` the original's answers are others than the port's: it pools the members of lists that share cells.
pub const KINDS: [&str; 6] = ["plant", "chains", "links", "equal", "recipes", "tails"];

/// A benchmark model of a kind, with exactly this many triples.
pub fn benchmark(kind: &str, size: usize) -> Model {
    let mut r = Random::item(7, size as u64);
    match kind {
        "plant" => plant(size, &mut r),
        "chains" => chains(size, 200, &mut r),
        "links" => links(size, 200, &mut r),
        "equal" => equal(size, false, &mut r),
        "recipes" => recipes(size, Cells::Own, &mut r),
        "tails" => recipes(size, Cells::Tails, &mut r),
        _ => panic!("no kind of model: {kind}"),
    }
}

/// A random large model; one in eight has as many triples as a load may have.
pub fn large(r: &mut Random) -> Model {
    let size = if r.percent(12) { LOAD_LIMIT } else { 200 << r.below(7) };
    let size = if size == LOAD_LIMIT { size } else { r.between(size, (2 * size).min(LOAD_LIMIT)) };
    let mut made = match r.below(11) {
        0..=3 => plant(size, r),
        4 => {
            let deep = r.between(2, 250);
            chains(size, deep, r)
        }
        5 => {
            let deep = r.between(2, 250);
            links(size, deep, r)
        }
        6 => {
            let inverse = r.percent(INVERSE);
            equal(size, inverse, r)
        }
        7..=8 => {
            let cells = if r.percent(ODD_LISTS) { Cells::Odd } else { Cells::Own };
            recipes(size, cells, r)
        }
        _ => {
            let (parts, inverse_functional, odd_lists) = (r.between(50, 400), r.percent(INVERSE), r.percent(ODD_LISTS));
            mixture(parts, Outside { inverse_functional, odd_lists }, r)
        }
    };
    if r.percent(50) {
        rename_some(&mut made, r);
    }
    r.shuffle(&mut made.load);
    made
}

/// Makes a few terms container properties, blank nodes and literals.
fn rename_some(made: &mut Model, r: &mut Random) {
    for k in 0..r.below(6) {
        let at = if r.percent(60) { r.below(made.terms.len().min(14)) } else { r.below(made.terms.len()) };
        made.terms[at] = match r.below(4) {
            0..=1 => (NAMED_NODE, format!("http://www.w3.org/1999/02/22-rdf-syntax-ns#_{}", k + 1).into_bytes()),
            2 => (BLANK_NODE, format!("b{k}").into_bytes()),
            _ => (LITERAL, format!("l{k}").into_bytes()),
        };
    }
}

/// A load in the making: no triple twice unless asked for, and never more than asked for.
pub(crate) struct Builder {
    size: usize,
    terms: u32,
    load: Vec<Triple>,
    held: HashSet<Triple>,
}

impl Builder {
    pub fn new(size: usize) -> Builder {
        Builder { size, terms: 0, load: Vec::new(), held: HashSet::new() }
    }

    pub fn fresh(&mut self) -> u32 {
        self.terms += 1;
        FIRST + self.terms - 1
    }

    pub fn several(&mut self, n: usize) -> Vec<u32> {
        (0..n).map(|_| self.fresh()).collect()
    }

    pub fn add(&mut self, s: u32, p: &str, o: u32) {
        self.link(s, word(p), o);
    }

    pub fn link(&mut self, s: u32, p: u32, o: u32) {
        if !self.full() && self.held.insert([s, p, o]) {
            self.load.push([s, p, o]);
        }
    }

    pub fn full(&self) -> bool {
        self.room() == 0
    }

    /// The triples that are left.
    pub fn room(&self) -> usize {
        self.size - self.load.len()
    }

    /// Takes a triple out, where it is there.
    pub fn take_out(&mut self, s: u32, p: &str, o: u32) {
        let triple = [s, word(p), o];
        if self.held.remove(&triple) {
            self.load.retain(|t| *t != triple);
        }
    }

    /// Puts a triple in once more.
    pub fn repeat(&mut self, s: u32, p: &str, o: u32) {
        if !self.full() && self.held.contains(&[s, word(p), o]) {
            self.load.push([s, word(p), o]);
        }
    }

    /// Cells for these members, before `tail`, which is nil or a cell of another list.
    pub fn cells(&mut self, members: &[u32], tail: u32) -> Vec<u32> {
        let cells = self.several(members.len());
        for (k, m) in members.iter().enumerate() {
            let rest = cells.get(k + 1).copied().unwrap_or(tail);
            self.add(cells[k], "first", *m);
            self.add(cells[k], "rest", rest);
        }
        cells
    }

    /// An RDF list; answers its first cell.
    fn list(&mut self, members: &[u32]) -> u32 {
        self.cells(members, word("nil"))[0]
    }

    pub fn model(self) -> Model {
        assert_eq!(self.load.len(), self.size);
        Model { terms: names(self.terms as usize), load: self.load }
    }
}

/// A blending plant: a class tree, properties with domain, range, inverse and parts, restrictions, intersections, unions and
/// disjoint classes, lines in a hall, then machines of lower classes with links between them.
fn plant(size: usize, r: &mut Random) -> Model {
    let mut b = Builder::new(size);
    let properties = b.several(12);
    let (part_of, branches) = (b.fresh(), r.between(4, 9));
    let classes = b.several((size / 50).clamp(6, 250));
    for k in 1..classes.len() {
        b.add(classes[k], "subClassOf", classes[(k - 1) / branches]);
    }
    plant_properties(&mut b, &properties, &classes);
    let class = |r: &mut Random| classes[r.below(classes.len())];
    for _ in 0..(size / 400).min(25) {
        plant_classes(&mut b, &properties, r, &class);
    }
    let hall = b.fresh();
    let lines = b.several(size / 200 + 1);
    b.add(part_of, "type", word("TransitiveProperty"));
    for line in &lines {
        b.link(*line, part_of, hall);
    }
    let mut machines = b.several(2);
    while !b.full() {
        let machine = b.fresh();
        let leaf = classes[classes.len() / branches + r.below(classes.len() - classes.len() / branches)];
        b.add(machine, "type", leaf);
        for _ in 0..r.between(1, 3) {
            let other = machines[machines.len() - 1 - r.below(machines.len().min(40))];
            b.link(machine, properties[r.below(properties.len())], other);
        }
        match r.below(400) {
            0..=49 => b.link(machine, part_of, lines[r.below(lines.len())]),
            50 => b.add(machine, "sameAs", machines[machines.len() - 1]),
            _ => {}
        }
        machines.push(machine);
    }
    b.model()
}

fn plant_properties(b: &mut Builder, properties: &[u32], classes: &[u32]) {
    let p = |k: usize| properties[k];
    b.add(p(0), "subPropertyOf", p(1));
    b.add(p(2), "inverseOf", p(3));
    b.add(p(4), "type", word("SymmetricProperty"));
    b.add(p(5), "domain", classes[1]);
    b.add(p(5), "range", classes[2]);
    b.add(p(6), "domain", classes[3]);
    b.add(p(7), "equivalentProperty", p(8));
    b.add(p(9), "propertyDisjointWith", p(1));
    b.add(p(10), "type", word("AsymmetricProperty"));
    b.add(p(11), "type", word("IrreflexiveProperty"));
}

/// One restriction of each kind, an intersection, a union, and two disjoint classes.
fn plant_classes(b: &mut Builder, properties: &[u32], r: &mut Random, class: &dyn Fn(&mut Random) -> u32) {
    let restriction = b.several(3);
    for (k, kind) in ["someValuesFrom", "allValuesFrom", "hasValue"].into_iter().enumerate() {
        b.add(restriction[k], "onProperty", properties[r.below(properties.len())]);
        let filler = if kind == "hasValue" { b.fresh() } else { class(r) };
        b.add(restriction[k], kind, filler);
    }
    let below = class(r);
    b.add(below, "subClassOf", restriction[1]);
    let made = b.several(2);
    let (both, either) = ([class(r), restriction[0]], [class(r), class(r), class(r)]);
    let (both, either) = (b.list(&both), b.list(&either));
    b.add(made[0], "intersectionOf", both);
    b.add(made[1], "unionOf", either);
    let (c, d) = (class(r), class(r));
    b.add(c, "disjointWith", d);
}

/// Spreads what is left of the budget: how many rows each of `rows` triples may bring.
fn share(spent: usize, rows: usize) -> usize {
    BUDGET.saturating_sub(spent) / rows.max(1)
}

/// One chain of `deep` classes, each below the next, and instances near its upper end.
fn chains(size: usize, deep: usize, r: &mut Random) -> Model {
    let mut b = Builder::new(size);
    let deep = deep.min(size - 1);
    let chain = b.several(deep + 1);
    for pair in chain.windows(2) {
        b.add(pair[0], "subClassOf", pair[1]);
    }
    let above = 2 * share(deep * (deep + 3) / 2, size - deep).saturating_sub(3);
    while !b.full() {
        let instance = b.fresh();
        b.add(instance, "type", chain[deep - r.below(above.min(deep) + 1)]);
    }
    b.model()
}

/// A transitive property: one path of `deep` links, and trees whose nodes hang near their roots.
fn links(size: usize, deep: usize, r: &mut Random) -> Model {
    let mut b = Builder::new(size);
    let deep = deep.min(size - 2);
    let p = b.fresh();
    b.add(p, "type", word("TransitiveProperty"));
    let path = b.several(deep + 1);
    for pair in path.windows(2) {
        b.link(pair[0], p, pair[1]);
    }
    let most = 2 * share(deep * (deep + 3) / 2, size - deep).saturating_sub(1);
    let mut nodes = vec![(b.fresh(), 0)];
    while !b.full() {
        let (parent, depth) = nodes[nodes.len() - 1 - r.below(nodes.len().min(8))];
        let node = b.fresh();
        if depth + 1 > most.max(1) {
            nodes = vec![(node, 0)];
            continue;
        }
        b.link(node, p, parent);
        nodes.push((node, depth + 1));
    }
    b.model()
}

/// The most links of a functional property: the original pairs each with each.
const MOST_PAIRED: usize = 300;

/// Groups of equal terms, a functional property, things with numbers, some with one number; where asked for, two things with one
/// number are one.
fn equal(size: usize, inverse: bool, r: &mut Random) -> Model {
    let mut b = Builder::new(size);
    let properties = b.several(4);
    b.add(properties[0], "type", word("FunctionalProperty"));
    let (things, numbers) = (b.several(r.between(2, 12)), b.several(8));
    if inverse {
        b.add(properties[1], "type", word("InverseFunctionalProperty"));
    }
    for thing in things {
        b.link(thing, properties[1], numbers[r.below(numbers.len())]);
    }
    while !b.full() {
        let group = b.several(if size > 5_000 { 1 + r.below(10) / 9 } else { r.between(1, 3) });
        let other = b.fresh();
        for pair in group.windows(2) {
            b.add(pair[0], "sameAs", pair[1]);
        }
        let functional = usize::from(b.load.len() > MOST_PAIRED);
        b.link(group[0], properties[2 * functional], other);
        b.link(group[0], properties[3], other);
    }
    b.model()
}
