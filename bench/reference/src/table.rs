//! The search over tables: three involutions of n chambers, in the order of their codes.

use crate::Request;

/// The most chambers.
pub const MOST: usize = 36;

/// One part of a share. A chamber in a cell of degree m has a share of `UNIT / m`.
const UNIT: u64 = 1 << 40;

/// Three involutions of chambers 1 to n, as far as they are known. 0 is an image that is not known.
pub struct Table {
    pub size: usize,
    images: [[u8; MOST + 1]; 3],
    /// What was put in, in order, so that it can be taken away again.
    trail: Vec<(u8, u8)>,
}

/// What a traversal from another chamber says of the prefix of a code. `Open` has the place of the image that it
/// lacks, 3 (d - 1) + i.
enum Reading {
    Smaller,
    Larger,
    Same,
    Open(u8),
}

/// The starts whose traversals are not larger so far, as bits, and for each the place whose image it lacks. A start
/// that has not been tried lacks the image at its own place 0.
#[derive(Clone, Copy)]
pub struct Starts {
    left: u64,
    lacks: [u8; MOST + 1],
}

impl Starts {
    pub fn new(size: usize) -> Starts {
        let mut lacks = [0; MOST + 1];
        for start in 1..=size {
            lacks[start] = 3 * (start as u8 - 1);
        }
        Starts { left: !0 >> (63 - size) & !3, lacks }
    }
}

impl Table {
    pub fn new(size: usize) -> Table {
        Table { size, images: [[0; MOST + 1]; 3], trail: Vec::with_capacity(3 * MOST) }
    }

    pub fn image(&self, i: usize, chamber: usize) -> usize {
        self.images[i][chamber] as usize
    }

    fn set(&mut self, i: usize, chamber: usize, image: usize) {
        self.images[i][chamber] = image as u8;
        self.images[i][image] = chamber as u8;
        self.trail.push((i as u8, chamber as u8));
    }

    fn undo(&mut self, mark: usize) {
        while self.trail.len() > mark {
            let (i, chamber) = self.trail.pop().unwrap();
            let image = self.images[i as usize][chamber as usize];
            self.images[i as usize][image as usize] = 0;
            self.images[i as usize][chamber as usize] = 0;
        }
    }

    /// Puts in an image, and the images that follow since s0 and s2 commute. Returns whether that is possible.
    fn put(&mut self, i: usize, chamber: usize, image: usize) -> bool {
        let mut next = self.trail.len();
        self.set(i, chamber, image);
        while next < self.trail.len() {
            let (i, chamber) = self.trail[next];
            next += 1;
            if i != 1 && !(self.follow(i as usize, chamber as usize) && self.follow(i as usize, self.image(i as usize, chamber as usize))) {
                return false;
            }
        }
        true
    }

    /// Puts in what follows at a chamber from its image under s0 or s2.
    fn follow(&mut self, i: usize, chamber: usize) -> bool {
        let j = 2 - i;
        let (across, beside) = (self.image(i, chamber), self.image(j, chamber));
        if beside == 0 {
            return true;
        }
        match (self.image(j, across), self.image(i, beside)) {
            (0, 0) => true,
            (0, far) => self.fits(j, across, far),
            (far, 0) => self.fits(i, beside, far),
            (one, other) => one == other,
        }
    }

    fn fits(&mut self, i: usize, chamber: usize, image: usize) -> bool {
        let is_free = self.image(i, image) == 0;
        if is_free {
            self.set(i, chamber, image);
        }
        is_free
    }

    /// Compares the traversal from a start chamber with the numbers of the table.
    fn reading_from(&self, start: usize) -> Reading {
        let (mut order, mut number, mut met) = ([0u8; MOST + 1], [0u8; MOST + 1], 1);
        order[1] = start as u8;
        number[start] = 1;
        for k in 1..=self.size {
            for i in 0..3 {
                let image = self.image(i, order[k] as usize);
                let own = self.image(i, k);
                if image == 0 || own == 0 {
                    let lacking = if image == 0 { order[k] as usize } else { k };
                    return Reading::Open((3 * (lacking - 1) + i) as u8);
                }
                if number[image] == 0 {
                    met += 1;
                    number[image] = met as u8;
                    order[met] = image as u8;
                }
                match (number[image] as usize).cmp(&own) {
                    std::cmp::Ordering::Less => return Reading::Smaller,
                    std::cmp::Ordering::Greater => return Reading::Larger,
                    std::cmp::Ordering::Equal => {}
                }
            }
        }
        Reading::Same
    }

    /// Walks along i and j from a chamber until an image is not known or the walk is back. Returns the number of
    /// chambers that it meets after the first, and whether it ended at an unknown image.
    fn walk(&self, mut i: usize, mut j: usize, start: usize, seen: &mut u64) -> (usize, bool) {
        let (mut at, mut count) = (start, 0);
        loop {
            let next = self.image(i, at);
            if next == 0 {
                return (count, true);
            }
            if next == at || *seen >> next & 1 == 1 {
                return (count, false);
            }
            *seen |= 1 << next;
            count += 1;
            at = next;
            std::mem::swap(&mut i, &mut j);
        }
    }

    /// The kinds of cells of a pair: for each cell that is whole its turns and whether it is a chain, and an upper
    /// bound on the sum of all shares. Returns None if more than `limit` cells are whole.
    fn bound(&self, i: usize, j: usize, shares: &Shares, limit: usize) -> Option<u64> {
        let (mut seen, mut sum, mut whole) = (0u64, 0, 0);
        for chamber in 1..=self.size {
            if seen >> chamber & 1 == 1 {
                continue;
            }
            seen |= 1 << chamber;
            let (ahead, is_open) = self.walk(i, j, chamber, &mut seen);
            let is_cycle = !is_open && self.closes(i, j, chamber, ahead);
            let (behind, is_open_behind) = if is_cycle { (0, false) } else { self.walk(j, i, chamber, &mut seen) };
            let count = 1 + ahead + behind;
            if is_cycle {
                sum += count as u64 * shares.of_turns[count / 2];
                whole += 1;
            } else if !is_open && !is_open_behind {
                sum += count as u64 * shares.of_turns[count];
                whole += 1;
            } else if is_open && is_open_behind {
                sum += count as u64 * shares.from[count.div_ceil(2)];
            } else {
                sum += count as u64 * shares.from[count];
            }
        }
        (whole <= limit).then_some(sum)
    }

    /// Returns whether a walk that met `ahead` chambers after the first one came back to it.
    fn closes(&self, i: usize, j: usize, chamber: usize, ahead: usize) -> bool {
        let mut at = chamber;
        for step in 0..=ahead {
            at = self.image(if step % 2 == 0 { i } else { j }, at);
        }
        ahead % 2 == 1 && at == chamber
    }

    /// Returns the shapes of the cells of a pair of a whole table by their least chambers: turns, and whether a chain.
    pub fn cells(&self, i: usize, j: usize) -> Vec<(u64, usize, bool)> {
        let (mut seen, mut cells) = (0u64, Vec::new());
        for chamber in 1..=self.size {
            if seen >> chamber & 1 == 1 {
                continue;
            }
            let before = seen;
            seen |= 1 << chamber;
            let (ahead, _) = self.walk(i, j, chamber, &mut seen);
            let is_cycle = self.closes(i, j, chamber, ahead);
            if !is_cycle {
                self.walk(j, i, chamber, &mut seen);
            }
            let own = seen & !before;
            let count = own.count_ones() as usize;
            cells.push((own, if is_cycle { count / 2 } else { count }, !is_cycle));
        }
        cells
    }

    /// Returns the numbers of chambers in the traversal from a start chamber, as the list of chambers in their order.
    pub fn order_from(&self, start: usize) -> [u8; MOST + 1] {
        let (mut order, mut seen, mut met) = ([0u8; MOST + 1], 1u64 << start, 1);
        order[1] = start as u8;
        for k in 1..=self.size {
            for i in 0..3 {
                let image = self.image(i, order[k] as usize);
                if seen >> image & 1 == 0 {
                    seen |= 1 << image;
                    met += 1;
                    order[met] = image as u8;
                }
            }
        }
        order
    }
}

/// Upper bounds on the share of a chamber, for one set of degrees.
pub struct Shares {
    /// By the turns of a whole cell.
    of_turns: [u64; MOST + 1],
    /// By the least turns of a cell.
    from: [u64; MOST + 1],
}

impl Shares {
    pub fn new(least: usize) -> Shares {
        let mut shares = Shares { of_turns: [0; MOST + 1], from: [0; MOST + 1] };
        for turns in (1..=MOST).rev() {
            let degree = [1, 2, 3, 4, 6].into_iter().map(|it| it * turns).find(|&it| it >= least);
            shares.of_turns[turns] = degree.map_or(0, |it| UNIT / it as u64 + 1);
            let later = if turns == MOST { 0 } else { shares.from[turns + 1] };
            shares.from[turns] = later.max(shares.of_turns[turns]);
        }
        shares
    }
}

/// A search over the tables of one size.
pub struct Search<'a, F: FnMut(&Table, &[usize])> {
    pub table: Table,
    pub request: &'a Request,
    pub faces: Shares,
    pub vertices: Shares,
    /// Called with each least table, and the chambers from which its numbering is the same.
    pub found: F,
}

impl<F: FnMut(&Table, &[usize])> Search<'_, F> {
    /// Finds all tables whose numbers begin with those put in so far. `place` is 3 (d - 1) + i of the next image, and
    /// `met` is how many chambers are met. `sums` are the bounds on the shares of tiles and of vertices.
    pub fn run(&mut self, mut place: usize, mut met: usize, starts: &Starts, sums: [u64; 2]) {
        let size = self.table.size;
        while place < 3 * size && self.table.image(place % 3, place / 3 + 1) != 0 {
            met = met.max(self.table.image(place % 3, place / 3 + 1));
            place += 1;
        }
        let Some(starts) = self.awake(starts) else {
            return;
        };
        if place == 3 * size {
            let ties: Vec<usize> = (2..=size).filter(|it| starts.left >> it & 1 == 1).collect();
            (self.found)(&self.table, &ties);
            return;
        }
        let (chamber, i) = (place / 3 + 1, place % 3);
        if chamber > met {
            return;
        }
        for image in chamber..=size.min(met + 1) {
            if self.table.image(i, image) != 0 {
                continue;
            }
            let mark = self.table.trail.len();
            if self.table.put(i, chamber, image) {
                if let Some(sums) = self.flat_sums(mark, sums) {
                    self.run(place + 1, met.max(image), &starts, sums);
                }
            }
            self.table.undo(mark);
        }
    }

    /// Tries the starts whose lacking image is known now. Returns those that are left, or None if one reads smaller.
    fn awake(&self, starts: &Starts) -> Option<Starts> {
        let (mut next, mut untried) = (*starts, starts.left);
        while untried != 0 {
            let start = untried.trailing_zeros() as usize;
            untried &= untried - 1;
            let lacking = next.lacks[start] as usize;
            if self.table.image(lacking % 3, lacking / 3 + 1) == 0 {
                continue;
            }
            match self.table.reading_from(start) {
                Reading::Smaller => return None,
                Reading::Larger => next.left &= !(1 << start),
                Reading::Open(place) => next.lacks[start] = place,
                Reading::Same => {}
            }
        }
        Some(next)
    }

    /// Returns the bounds on the shares of tiles and of vertices after what was put in since a mark, or None if they
    /// can't add up to those of a flat symbol.
    fn flat_sums(&self, mark: usize, sums: [u64; 2]) -> Option<[u64; 2]> {
        let changed = self.table.trail[mark..].iter().fold(0, |it, &(i, _)| it | 1 << i);
        let limits = [self.request.tiles, self.request.vertices].map(|it| if it == 0 { MOST } else { it });
        let mut next = sums;
        for (pair, shares) in [&self.faces, &self.vertices].into_iter().enumerate() {
            if changed >> pair & 3 != 0 {
                let most = 2 * limits[pair] as u64 * (UNIT + MOST as u64);
                next[pair] = self.table.bound(pair, pair + 1, shares, limits[pair])?.min(most);
            }
        }
        (next[0] + next[1] >= self.table.size as u64 * UNIT / 2).then_some(next)
    }
}
