//! Classes of inputs for measuring, by size.

use crate::build;
use crate::families;
use crate::generate::{self, Input, Size};
use crate::random::Random;
use crate::village::{self, Shape};
use crate::wire::Node;

/// Inputs of a size. Of those that `any` makes, only such are measured as are
/// answered with so many persons and worlds.
pub struct Class {
    pub name: &'static str,
    pub what: &'static str,
    pub persons: (u64, u64),
    pub worlds: (u64, u64),
    pub count: usize,
    /// Buffers just as long as the answer needs; else as long as the lister's.
    pub fit: bool,
    any: fn(&mut Random) -> Input,
}

pub const ALL: [Class; 9] = [
    SMALL,
    Class { name: "small-fit", what: "the same, buffers that just fit", fit: true, ..SMALL },
    Class {
        name: "medium",
        what: "20-40 persons in households, 64-512 worlds",
        persons: (20, 40),
        worlds: (64, 512),
        count: 10,
        any: medium,
        ..SMALL
    },
    Class {
        name: "large",
        what: "60 persons in households, 1,024-4,096 worlds",
        persons: (60, 60),
        worlds: (1024, 4096),
        count: 4,
        any: large,
        ..SMALL
    },
    Class {
        name: "worst",
        what: "64 persons, every kind of plan record to its limit, 4,096 worlds",
        persons: (64, 64),
        worlds: (4096, 4096),
        count: 2,
        any: worst,
        ..SMALL
    },
    Class {
        name: "families",
        what: "12 families of 5, an open fact each, 4,096 worlds",
        any: families::apart,
        ..CROWD
    },
    CROWD,
    Class {
        name: "chain-10",
        what: "1 person, a chain of 10 nodes, as chain-12",
        any: |_| chain(10),
        ..CHAIN
    },
    CHAIN,
];

const SMALL: Class = Class {
    name: "small",
    what: "3-8 persons, 1-16 worlds, the lister's buffers",
    persons: (3, 8),
    worlds: (1, 16),
    count: 20,
    fit: false,
    any: |random| generate::input(random, FEW),
};

const CROWD: Class = Class {
    name: "crowd",
    what: "the same families, joined into one crowd",
    persons: (60, 60),
    worlds: (4096, 4096),
    count: 2,
    fit: false,
    any: families::crowd,
};

const CHAIN: Class = Class {
    name: "chain-12",
    what: "1 person, a chain of 12 nodes, each using the one below twice: the Rust walks every use",
    persons: (1, 1),
    worlds: (1, 1),
    count: 1,
    any: |_| chain(12),
    ..SMALL
};

const FEW: Size = Size {
    persons: 8,
    booleans: 4,
    relations: 3,
    composites: 5,
    edges: 8,
    cuts: 3,
    attachments: 2,
    bars: 2,
    statuses: 2,
    unresolved: 2,
    open: 40,
};

fn medium(random: &mut Random) -> Input {
    let shape = Shape {
        persons: random.between(20, 40),
        booleans: random.between(8, 12),
        relations: 4,
        composites: random.between(6, 16),
        children: 3,
        defeaters: random.below(2),
        combinations: random.between(2, 4),
        cuts: random.between(2, 5),
        rules: random.between(2, 5),
        unresolved: random.below(3),
        open: random.between(6, 8),
        calm: random.percent(75),
    };
    village::input(random, shape)
}

fn large(random: &mut Random) -> Input {
    let shape = Shape {
        persons: 60,
        booleans: random.between(16, 24),
        relations: 8,
        composites: random.between(24, 48),
        children: 4,
        defeaters: random.below(3),
        combinations: random.between(3, 6),
        cuts: random.between(4, 8),
        rules: random.between(8, 16),
        unresolved: random.below(4),
        open: random.between(8, 12),
        calm: random.percent(75),
    };
    village::input(random, shape)
}

fn worst(random: &mut Random) -> Input {
    let shape = Shape { calm: random.percent(50), ..FULL };
    village::input(random, shape)
}

/// Every kind of record to its limit, and the lists of nodes and defeaters.
const FULL: Shape = Shape {
    persons: 64,
    booleans: 48,
    relations: 16,
    composites: 191,
    children: 16,
    defeaters: 16,
    combinations: 6,
    cuts: 16,
    rules: 32,
    unresolved: 4,
    open: 8,
    calm: true,
};

/// Each node And of the one below, twice.
fn chain(nodes: u8) -> Input {
    let mut plan = build::plan();
    plan.nodes.extend((0..nodes).map(|below| Node::And(vec![below, below])));
    plan.statuses = vec![build::status(0, nodes)];
    Input { plan, case: build::case(1) }
}

impl Class {
    /// Inputs of this size, some of which are of the class; always the same.
    pub fn candidates(&self) -> impl Iterator<Item = Input> {
        let any = self.any;
        (0..).map(move |number| any(&mut Random::stream(61, number)))
    }
}
