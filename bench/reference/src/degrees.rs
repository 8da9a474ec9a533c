//! The degrees of a whole table: all flat symbols with its involutions that are least.

use crate::table::{Table, MOST};
use crate::Request;

/// A cell of tiles or vertices: its chambers as bits, its turns, what it has of the curvature at v = 1 in twelfths,
/// and whether it is of tiles.
struct Cell {
    chambers: u64,
    turns: usize,
    whole: usize,
    is_tile: bool,
}

/// A symbol: a table with the degrees of tiles and of vertices at its chambers.
pub struct Symbol<'a> {
    pub table: &'a Table,
    pub m01: [u8; MOST + 1],
    pub m12: [u8; MOST + 1],
}

struct Assignment<'a, F: FnMut(&Symbol)> {
    cells: Vec<Cell>,
    /// The least and the most that the cells from one on have of the curvature, in twelfths.
    rest: Vec<(usize, usize)>,
    request: &'a Request,
    orders: Vec<[u8; MOST + 1]>,
    symbol: Symbol<'a>,
    found: F,
}

/// Calls `found` with each member that has the involutions of a table, ascending.
pub fn members_of(table: &Table, ties: &[usize], request: &Request, found: impl FnMut(&Symbol)) {
    let mut cells = Vec::new();
    for (i, limit, is_tile) in [(0, request.tiles, true), (1, request.vertices, false)] {
        let each = table.cells(i, i + 1);
        if limit != 0 && each.len() > limit {
            return;
        }
        for (chambers, turns, is_chain) in each {
            cells.push(Cell { chambers, turns, whole: if is_chain { 12 } else { 24 }, is_tile });
        }
    }
    let mut rest = vec![(0, 0); cells.len() + 1];
    for at in (0..cells.len()).rev() {
        let shares: Vec<usize> = values(&cells[at], request).map(|v| cells[at].whole / v).collect();
        let (Some(least), Some(most)) = (shares.iter().min(), shares.iter().max()) else {
            return;
        };
        rest[at] = (rest[at + 1].0 + least, rest[at + 1].1 + most);
    }
    let orders = ties.iter().map(|&it| table.order_from(it)).collect();
    let symbol = Symbol { table, m01: [0; MOST + 1], m12: [0; MOST + 1] };
    Assignment { cells, rest, request, orders, symbol, found }.run(0, 6 * table.size);
}

/// The branching numbers that a request allows a cell.
fn values<'a>(cell: &'a Cell, request: &'a Request) -> impl Iterator<Item = usize> + 'a {
    let least = if cell.is_tile { request.least_face } else { request.least_degree };
    [1, 2, 3, 4, 6].into_iter().filter(move |v| v * cell.turns >= least)
}

impl<F: FnMut(&Symbol)> Assignment<'_, F> {
    /// Chooses the branching numbers of the cells from one on, which have `left` twelfths of the curvature together.
    fn run(&mut self, at: usize, left: usize) {
        if left < self.rest[at].0 || left > self.rest[at].1 {
            return;
        }
        if at == self.cells.len() {
            if self.is_least() && (!self.request.minimal || self.is_minimal()) {
                (self.found)(&self.symbol);
            }
            return;
        }
        let choices: Vec<usize> = values(&self.cells[at], self.request).collect();
        for v in choices {
            let (share, degree) = (self.cells[at].whole / v, v * self.cells[at].turns);
            if share > left {
                continue;
            }
            let list = if self.cells[at].is_tile { &mut self.symbol.m01 } else { &mut self.symbol.m12 };
            for chamber in (1..=MOST).filter(|it| self.cells[at].chambers >> it & 1 == 1) {
                list[chamber] = degree as u8;
            }
            self.run(at + 1, left - share);
        }
    }

    /// Returns whether no numbering from a tie has smaller degrees.
    fn is_least(&self) -> bool {
        let size = self.symbol.table.size;
        self.orders.iter().all(|order| {
            let other = |list: &[u8; MOST + 1], k: usize| list[order[k] as usize];
            let (m01, m12) = (&self.symbol.m01, &self.symbol.m12);
            let there = (1..=size).map(|k| other(m01, k)).chain((1..=size).map(|k| other(m12, k)));
            let here = (1..=size).map(|k| m01[k]).chain((1..=size).map(|k| m12[k]));
            there.ge(here)
        })
    }

    /// Returns whether no two chambers agree in the degrees after every word: classes by degrees are refined by the
    /// classes of the neighbors until they stay.
    fn is_minimal(&self) -> bool {
        let size = self.symbol.table.size;
        let mut class: Vec<usize> = (0..=size).map(|d| self.symbol.m01[d] as usize * 256 + self.symbol.m12[d] as usize).collect();
        let mut count = 0;
        loop {
            let keys: Vec<[usize; 4]> = (1..=size)
                .map(|d| [class[d], class[self.symbol.table.image(0, d)], class[self.symbol.table.image(1, d)], class[self.symbol.table.image(2, d)]])
                .collect();
            let mut sorted = keys.clone();
            sorted.sort_unstable();
            sorted.dedup();
            if sorted.len() == size || sorted.len() == count {
                return sorted.len() == size;
            }
            count = sorted.len();
            for d in 1..=size {
                class[d] = sorted.binary_search(&keys[d - 1]).unwrap();
            }
        }
    }
}
