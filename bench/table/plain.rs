//! The table's search over numbers in plain Rust, for comparison: `plain LAST BELOW ROUNDS`.
use std::cmp::{Ordering, Reverse};
use std::collections::{BinaryHeap, HashMap};
use std::hash::Hash;

struct Step<S, M> {
    to: S,
    by: M,
    cost: i128,
}

trait Space {
    type State;
    type Move;
    type Key: Eq + Hash;

    fn start(&self) -> Self::State;
    fn key(&self, state: &Self::State) -> Self::Key;
    fn rank(&self, state: &Self::State) -> u64;
    fn block(&self, state: &Self::State) -> u32;
    fn is_done(&self, state: &Self::State) -> bool;
    fn no_worse(&self, a: &Self::State, b: &Self::State) -> bool;
    fn order(&self, a: &Self::Move, b: &Self::Move) -> Ordering;
    fn expand(&self, state: &Self::State) -> (Vec<Step<Self::State, Self::Move>>, u32);
}

struct Numbers {
    last: u32,
}

impl Space for Numbers {
    type State = u32;
    type Move = u32;
    type Key = u32;

    fn start(&self) -> u32 {
        0
    }

    fn key(&self, state: &u32) -> u32 {
        *state
    }

    fn rank(&self, state: &u32) -> u64 {
        u64::from(*state)
    }

    fn block(&self, state: &u32) -> u32 {
        *state
    }

    fn is_done(&self, state: &u32) -> bool {
        *state == self.last
    }

    fn no_worse(&self, a: &u32, b: &u32) -> bool {
        a == b
    }

    fn order(&self, a: &u32, b: &u32) -> Ordering {
        a.cmp(b)
    }

    fn expand(&self, state: &u32) -> (Vec<Step<u32, u32>>, u32) {
        let mut steps = Vec::new();
        for by in 1..=2 {
            let to = state + by;
            if to <= self.last {
                steps.push(Step { to, by, cost: 1 });
            }
        }
        (steps, state + 3)
    }
}

struct Entry<S, M> {
    state: S,
    cost: i128,
    parent: usize,
    by: Option<M>,
    reach: u32,
}

#[derive(PartialEq, Eq, PartialOrd, Ord)]
struct Turn {
    block: u32,
    rank: u64,
    place: usize,
}

struct Search<'a, P: Space> {
    space: &'a P,
    entries: Vec<Entry<P::State, P::Move>>,
    places: HashMap<P::Key, usize>,
    buckets: Vec<Vec<Entry<P::State, P::Move>>>,
    turns: BinaryHeap<Reverse<Turn>>,
    closed: Vec<usize>,
}

fn compare_runs<'a, P: Space>(
    space: &P,
    entries: &'a [Entry<P::State, P::Move>],
    mut a: &'a Entry<P::State, P::Move>,
    mut b: &'a Entry<P::State, P::Move>,
) -> Ordering {
    loop {
        match (&a.by, &b.by) {
            (None, None) => return Ordering::Equal,
            (None, Some(_)) => return Ordering::Less,
            (Some(_), None) => return Ordering::Greater,
            (Some(m), Some(n)) => {
                let first = space.order(m, n);
                if first.is_ne() {
                    return first;
                }
            }
        }
        a = &entries[a.parent];
        b = &entries[b.parent];
    }
}

fn undercuts<P: Space>(
    space: &P,
    entries: &[Entry<P::State, P::Move>],
    a: &Entry<P::State, P::Move>,
    b: &Entry<P::State, P::Move>,
) -> bool {
    a.cost < b.cost || (a.cost == b.cost && compare_runs(space, entries, a, b).is_le())
}

fn betters<P: Space>(
    space: &P,
    entries: &[Entry<P::State, P::Move>],
    a: &Entry<P::State, P::Move>,
    b: &Entry<P::State, P::Move>,
) -> bool {
    space.no_worse(&a.state, &b.state) && undercuts(space, entries, a, b)
}

impl<'a, P: Space> Search<'a, P> {
    fn insert(&mut self, label: Entry<P::State, P::Move>) {
        let Search { space, entries, places, buckets, turns, closed } = self;
        let place = *places.entry(space.key(&label.state)).or_insert_with(|| {
            closed.pop().unwrap_or_else(|| {
                buckets.push(Vec::new());
                buckets.len() - 1
            })
        });
        let bucket = &mut buckets[place];
        if bucket.is_empty() {
            turns.push(Reverse(Turn {
                block: space.block(&label.state),
                rank: space.rank(&label.state),
                place,
            }));
        }
        if bucket.iter().any(|p| betters(*space, entries, p, &label)) {
            return;
        }
        bucket.retain(|p| !betters(*space, entries, &label, p));
        bucket.push(label);
    }

    fn take_first(&mut self) -> Option<Entry<P::State, P::Move>> {
        let place = self.turns.peek()?.0.place;
        let label = self.buckets[place].pop()?;
        if self.buckets[place].is_empty() {
            self.turns.pop();
            self.places.remove(&self.space.key(&label.state));
            self.closed.push(place);
        }
        Some(label)
    }

    fn add_steps(&mut self, at: usize, below: u32, steps: Vec<Step<P::State, P::Move>>) {
        let cost = self.entries[at].cost;
        for step in steps.into_iter().rev() {
            if self.space.block(&step.to) + 1 >= below {
                self.insert(Entry {
                    state: step.to,
                    cost: cost + step.cost,
                    parent: at,
                    by: Some(step.by),
                    reach: 0,
                });
            }
        }
    }

    fn refill(&mut self, below: u32) {
        let space = self.space;
        let kept = self.entries.partition_point(|e| space.block(&e.state) + 1 < below);
        self.entries.truncate(kept);
        let state = space.start();
        if space.block(&state) + 1 >= below {
            self.insert(Entry { state, cost: 0, parent: 0, by: None, reach: 0 });
        }
        for at in 0..kept {
            if self.entries[at].reach >= below {
                let (steps, reach) = space.expand(&self.entries[at].state);
                self.entries[at].reach = reach;
                self.add_steps(at, below, steps);
            }
        }
        while let Some(mut label) = self.take_first() {
            let (steps, reach) = space.expand(&label.state);
            label.reach = reach;
            self.entries.push(label);
            self.add_steps(self.entries.len() - 1, below, steps);
        }
    }

    fn best(&self) -> Option<usize> {
        let mut best: Option<usize> = None;
        for (i, entry) in self.entries.iter().enumerate() {
            if self.space.is_done(&entry.state)
                && best.is_none_or(|b| !undercuts(self.space, &self.entries, &self.entries[b], entry))
            {
                best = Some(i);
            }
        }
        best
    }
}

fn main() {
    let words: Vec<u32> = std::env::args().skip(1).map(|w| w.parse().unwrap()).collect();
    let space = Numbers { last: words[0] };
    let mut search = Search {
        space: &space,
        entries: Vec::new(),
        places: HashMap::new(),
        buckets: Vec::new(),
        turns: BinaryHeap::new(),
        closed: Vec::new(),
    };
    search.refill(0);
    for _ in 0..words[2] {
        search.refill(words[1]);
    }
    let best = search.best().unwrap();
    println!("{} labels, best {} at the cost {}", search.entries.len(), best, search.entries[best].cost);
}
