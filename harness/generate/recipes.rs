//! Recipes: classes that are intersections of 2 to 8 components, or unions of them, and instances of components and of recipes.

use crate::large::Builder;
use crate::{word, Model, Random};

/// Whose cells the lists have.
#[derive(Clone, Copy, PartialEq)]
pub(crate) enum Cells {
    /// Each list its own.
    Own,
    /// A third of the lists share their last cells, four at a time.
    Tails,
    /// As `Tails`; some lists are spoilt or named at a later cell; and there is a long list, and at times list triples of nil.
    Odd,
}

/// A recipe for so many triples of the load, and a component for so many.
const RECIPE: usize = 16;
const COMPONENT: usize = 40;

/// The triples of a recipe of eight components.
const LONGEST: usize = 17;

/// So many recipes end in the same cells.
const SHARING: usize = 4;

/// With Cells::Odd so many lists in a hundred are spoilt, and so many are named at any of their cells.
const SPOILT: usize = 25;
const LATER: usize = 10;

/// Last cells that several recipes have.
struct Tail {
    members: Vec<u32>,
    cell: u32,
}

struct Recipe {
    class: u32,
    members: Vec<u32>,
    /// Those of its own.
    cells: Vec<u32>,
}

/// A load of exactly `size` triples; 1,000 recipes with 16,000.
pub(crate) fn recipes(size: usize, cells: Cells, r: &mut Random) -> Model {
    let mut b = Builder::new(size);
    let components = b.several((size / COMPONENT).max(8));
    if cells == Cells::Odd {
        long_list(&mut b, size / 10, &components, r);
    }
    let (mut made, mut tail) = (Vec::new(), None);
    for k in 0..size / RECIPE {
        if b.room() < 2 * LONGEST {
            break;
        }
        if cells != Cells::Own && k % (3 * SHARING) == 0 {
            let members = several(&components, r.between(1, 4), r);
            tail = Some(Tail { cell: b.cells(&members, word("nil"))[0], members });
        }
        let recipe = recipe(&mut b, &components, tail.as_ref().filter(|_| k % 3 == 0), r);
        let named = if cells == Cells::Odd && r.percent(LATER) { r.pick(&recipe.cells) } else { recipe.cells[0] };
        b.add(recipe.class, if r.percent(25) { "unionOf" } else { "intersectionOf" }, named);
        if cells == Cells::Odd && r.percent(SPOILT) {
            spoil(&mut b, &recipe, &components, r);
        }
        made.push(recipe);
    }
    instances(&mut b, &components, &made, r);
    b.model()
}

fn recipe(b: &mut Builder, components: &[u32], tail: Option<&Tail>, r: &mut Random) -> Recipe {
    let class = b.fresh();
    match tail {
        None => {
            let members = several(components, r.between(2, 8), r);
            Recipe { class, cells: b.cells(&members, word("nil")), members }
        }
        Some(tail) => {
            let own = several(components, r.between(1, 4), r);
            Recipe { class, cells: b.cells(&own, tail.cell), members: [own, tail.members.clone()].concat() }
        }
    }
}

fn several(of: &[u32], n: usize, r: &mut Random) -> Vec<u32> {
    (0..n).map(|_| r.pick(of)).collect()
}

/// Does to a list what makes it improper, or repeats a triple of it, which does not.
fn spoil(b: &mut Builder, recipe: &Recipe, components: &[u32], r: &mut Random) {
    let cells = &recipe.cells;
    let (at, to) = (r.below(cells.len()), r.below(cells.len()));
    let last = cells[cells.len() - 1];
    match r.below(7) {
        0 => b.add(cells[at], "first", r.pick(components)),
        1 => b.add(cells[at], "rest", word("nil")),
        2 => b.add(last, "rest", cells[to]),
        3 => b.take_out(cells[at], "first", recipe.members[at]),
        4 => b.take_out(last, "rest", word("nil")),
        5 => {
            b.take_out(last, "rest", word("nil"));
            b.add(last, "rest", cells[to]);
        }
        _ => b.repeat(cells[at], "first", recipe.members[at]),
    }
}

/// A list of so many cells, some of them named; at times its last cell goes back to one of them, nil has list triples and is named, and an
/// intersection of nil has every subject.
fn long_list(b: &mut Builder, long: usize, components: &[u32], r: &mut Random) {
    let members = several(components, long.max(2), r);
    let cells = b.cells(&members, word("nil"));
    for k in 0..r.between(1, 5) {
        let class = b.fresh();
        let kind = if r.percent(70) { "unionOf" } else { "intersectionOf" };
        b.add(class, kind, if k == 0 { cells[0] } else { r.pick(&cells) });
    }
    let last = cells[cells.len() - 1];
    if r.percent(40) {
        b.take_out(last, "rest", word("nil"));
        b.add(last, "rest", r.pick(&cells));
    }
    if r.percent(50) {
        b.add(word("nil"), "first", r.pick(components));
        b.add(word("nil"), "rest", r.pick(&cells));
        let class = b.fresh();
        b.add(class, "unionOf", word("nil"));
    }
    if r.percent(50) {
        let class = b.fresh();
        b.add(class, "intersectionOf", word("nil"));
    }
}

/// Instances of all components of a recipe, of a recipe, and of a component.
fn instances(b: &mut Builder, components: &[u32], made: &[Recipe], r: &mut Random) {
    while !b.full() {
        let (instance, recipe) = (b.fresh(), &made[r.below(made.len())]);
        match r.below(8) {
            0..=2 => recipe.members.iter().for_each(|c| b.add(instance, "type", *c)),
            3..=4 => b.add(instance, "type", recipe.class),
            _ => b.add(instance, "type", r.pick(components)),
        }
    }
}
