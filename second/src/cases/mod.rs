//! The calls that are compared, family by family, from a seed.

pub mod archive;
pub mod edges;
pub mod filing;
pub mod forged;
pub mod images;
pub mod joint;
pub mod known;
pub mod order;
pub mod pairs;
pub mod proofs;
pub mod raw;
pub mod repeated;
pub mod rows;
pub mod streams;
pub mod tags;

use crate::frames::{Answer, Request};

/// What to deal: the seed, how many random calls, the longest row of those that
/// are gone through one by one, and whether the first difference is enough.
#[derive(Clone, Copy, Debug)]
pub struct Plan {
    pub seed: u64,
    pub cases: u32,
    pub rows: u32,
    pub first: bool,
}

/// One call. Some have an answer that a document states.
pub struct Case {
    pub family: &'static str,
    pub request: Request,
    pub stated: Option<Answer>,
}

/// Where the families put their calls. What takes them says whether to go on.
pub struct Deck<'a> {
    put: &'a mut dyn FnMut(Case) -> bool,
    open: bool,
}

impl<'a> Deck<'a> {
    pub fn new(put: &'a mut dyn FnMut(Case) -> bool) -> Deck<'a> {
        Deck { put, open: true }
    }

    fn put_case(&mut self, case: Case) {
        if self.open {
            self.open = (self.put)(case);
        }
    }

    pub fn put(&mut self, family: &'static str, request: Request) {
        self.put_case(Case {
            family,
            request,
            stated: None,
        });
    }

    pub fn put_stated(&mut self, family: &'static str, request: Request, stated: Answer) {
        self.put_case(Case {
            family,
            request,
            stated: Some(stated),
        });
    }
}

/// The families. Down to the short rows they are the same for every seed and
/// hold all that the coverage table asks for; then they are random.
const FAMILIES: [fn(&Plan, &mut Deck); 42] = [
    |_, deck| known::deal(deck),
    |_, deck| filing::honest::deal(deck),
    |_, deck| filing::order::deal(deck),
    |_, deck| filing::places::deal(deck),
    |_, deck| joint::order::deal(deck),
    |_, deck| repeated::deal(deck),
    |_, deck| joint::form::deal(deck),
    |_, deck| filing::blocks::deal(deck),
    |_, deck| filing::proofs::deal(deck),
    |_, deck| filing::forged::fixed(deck),
    |_, deck| filing::outages::deal(deck),
    |_, deck| filing::edges::deal(deck),
    |_, deck| tags::deal(deck),
    |_, deck| order::deal(deck),
    |_, deck| images::every_header_byte(deck),
    |_, deck| pairs::every_kind(deck),
    |_, deck| proofs::every_rule(deck),
    |_, deck| proofs::every_bit(deck),
    |_, deck| forged::fixed(deck),
    |_, deck| known::coin_words(deck),
    |_, deck| joint::room::deal(deck),
    |_, deck| joint::spelled::deal(deck),
    |_, deck| joint::forged::fixed(deck),
    |_, deck| joint::honest::deal(deck),
    |_, deck| edges::deal(deck),
    |plan, deck| rows::every_short_row(plan.rows, deck),
    |plan, deck| rows::random(plan.seed, plan.cases / 4, deck),
    |plan, deck| images::random(plan.seed, plan.cases / 8, deck),
    |plan, deck| proofs::random(plan.seed, plan.cases / 4, deck),
    |plan, deck| forged::random(plan.seed, plan.cases / 4, deck),
    |plan, deck| pairs::random(plan.seed, plan.cases / 8, deck),
    |plan, deck| tags::random(plan.seed, plan.cases / 16, deck),
    |plan, deck| repeated::random_rows(plan.seed, plan.cases / 16, deck),
    |plan, deck| repeated::forged(plan.seed, plan.cases / 16, deck),
    |plan, deck| joint::honest::random(plan.seed, plan.cases / 16, deck),
    |plan, deck| joint::forged::random(plan.seed, plan.cases / 32, deck),
    |plan, deck| joint::lies::random(plan.seed, plan.cases / 8, deck),
    |plan, deck| filing::lies::rows(plan.seed, plan.cases / 40, deck),
    |plan, deck| filing::lies::lies(plan.seed, plan.cases / 20, deck),
    |plan, deck| filing::forged::random(plan.seed, plan.cases / 80, deck),
    |plan, deck| filing::outages::random(plan.seed, plan.cases / 80, deck),
    |plan, deck| filing::places::random(plan.seed, plan.cases / 80, deck),
];

/// Deals every call of the plan.
pub fn deal(plan: &Plan, deck: &mut Deck) {
    for family in FAMILIES {
        if deck.open {
            family(plan, deck);
        }
    }
}
