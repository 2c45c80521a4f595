//! A quotient filter in plain Rust with the words of docs/LAYOUT.md, bit for bit: nothing of it comes from the crates.
//!
//! Entries are moved by whole words, and the k-th one of a word is found without a loop over ones. `PDEP` says whether the processor's instruction
//! for that is used; the loops over a list of fingerprints are compiled for processors with and without it.

use std::arch::x86_64::_pdep_u64;

/// What is read from the words: how many bits a remainder has, and how many words a block.
#[derive(Clone, Copy)]
struct View<'a, const PDEP: bool> {
    words: &'a [u64],
    r: usize,
    slots: usize,
    lanes: Lanes,
}

/// Remainders side by side in one word: how many there are, the lowest bit of each, and the highest of each.
#[derive(Clone, Copy)]
struct Lanes {
    count: usize,
    ones: u64,
    highs: u64,
}

impl Lanes {
    fn new(r: usize) -> Self {
        let count = 64 / r;
        let ones = (0..count).fold(0, |ones, i| ones | 1 << (i * r));
        Lanes {
            count,
            ones,
            highs: ones << (r - 1),
        }
    }
}

/// Where a run lies, or would lie: from slot `from` up to, not including, `to`.
#[derive(Clone, Copy)]
struct Run {
    from: usize,
    to: usize,
    occupied: bool,
}

/// The place of the `k`-th one of `w`, counted from 0; there is one.
#[inline(always)]
fn select<const PDEP: bool>(w: u64, k: u32) -> u32 {
    if PDEP {
        // SAFETY: only reached from functions that are compiled for processors with it.
        unsafe { _pdep_u64(1 << k, w) }.trailing_zeros()
    } else {
        broadword(w, k)
    }
}

/// The same by sums of bytes, side by side, and a table for the last byte.
#[inline(always)]
fn broadword(w: u64, k: u32) -> u32 {
    const ONES: u64 = 0x0101_0101_0101_0101;
    const HIGHS: u64 = 0x8080_8080_8080_8080;
    let pairs = w - ((w >> 1) & 0x5555_5555_5555_5555);
    let fours = (pairs & 0x3333_3333_3333_3333) + ((pairs >> 2) & 0x3333_3333_3333_3333);
    let sums = ((fours + (fours >> 4)) & 0x0F0F_0F0F_0F0F_0F0F).wrapping_mul(ONES);
    let below = (((u64::from(k) * ONES) | HIGHS) - sums) & HIGHS;
    let byte = below.count_ones() * 8;
    let before = ((sums << 8) >> byte) as u32 & 0xff;
    byte + u32::from(IN_BYTE[((w >> byte) as usize & 0xff) | ((k - before) as usize) << 8])
}

/// The place of the `k`-th one of byte `b`, at `256 * k + b`.
static IN_BYTE: [u8; 2048] = in_byte();

const fn in_byte() -> [u8; 2048] {
    let mut table = [0; 2048];
    let mut b = 0;
    while b < 256 {
        let mut k = 0;
        let mut i = 0;
        while i < 8 {
            if b >> i & 1 == 1 {
                table[256 * k + b] = i as u8;
                k += 1;
            }
            i += 1;
        }
        b += 1;
    }
    table
}

/// The places of a word from `i` on, `i` below 64.
#[inline(always)]
fn from_place(i: usize) -> u64 {
    !0 << i
}

/// The lowest `n` places of a word, `n` from 1 to 64.
#[inline(always)]
fn places_below(n: usize) -> u64 {
    !0 >> (64 - n)
}

impl<const PDEP: bool> View<'_, PDEP> {
    #[inline(always)]
    fn word(&self, j: usize) -> u64 {
        debug_assert!(j < self.words.len());
        // SAFETY: a filter's words are those of its blocks and one more, and each place asked for is in a block, or the word after it.
        unsafe { *self.words.get_unchecked(j) }
    }

    #[inline(always)]
    fn block(&self, b: usize) -> usize {
        b * (self.r + 3)
    }

    #[inline(always)]
    fn remainder(&self, s: usize) -> u64 {
        let bit = s % 64 * self.r;
        let j = self.block(s / 64) + 3 + bit / 64;
        let low = self.word(j) >> (bit % 64);
        let high = self.word(j + 1) << 1 << (63 - bit % 64);
        (low | high) & places_below(self.r)
    }

    /// The slot after the `k`-th runend at or after slot `head`, `k` above 0.
    #[inline(always)]
    fn after(&self, head: usize, k: u32) -> usize {
        let mut b = head / 64;
        let mut w = self.word(self.block(b) + 1) & from_place(head % 64);
        let mut k = k;
        loop {
            let n = w.count_ones();
            if k <= n {
                return 64 * b + select::<PDEP>(w, k - 1) as usize + 1;
            }
            k -= n;
            b += 1;
            w = self.word(self.block(b) + 1);
        }
    }

    /// The run of `c`, from the runs of its block that still go on at `c`: for most quotients none.
    #[inline(always)]
    fn run(&self, c: usize) -> Run {
        let base = self.block(c / 64);
        let place = c % 64;
        let runs = self.word(base);
        let offset = self.word(base + 2) as usize;
        let begun = (runs & !from_place(place)).count_ones();
        let occupied = runs >> place & 1 == 1;
        if offset <= place {
            let ends = self.word(base + 1);
            let ended = (ends & !from_place(place) & from_place(offset)).count_ones();
            self.skip(c, begun - ended, occupied)
        } else {
            self.skip(c / 64 * 64 + offset, begun, occupied)
        }
    }

    /// The run after the `open` runs that go on at slot `x`, or none.
    #[inline(always)]
    fn skip(&self, x: usize, open: u32, occupied: bool) -> Run {
        let mut b = x / 64;
        let mut ends = self.word(self.block(b) + 1) & from_place(x % 64);
        let mut from = x;
        if open > 0 {
            let mut open = open;
            loop {
                let n = ends.count_ones();
                if open <= n {
                    break;
                }
                open -= n;
                b += 1;
                ends = self.word(self.block(b) + 1);
            }
            let last = select::<PDEP>(ends, open - 1);
            from = 64 * b + last as usize + 1;
            ends &= !1 << last;
        }
        let mut to = from;
        if occupied {
            while ends == 0 {
                b += 1;
                ends = self.word(self.block(b) + 1);
            }
            to = 64 * b + ends.trailing_zeros() as usize + 1;
        }
        Run { from, to, occupied }
    }

    /// The first slot from `from` up to `to` with a remainder of `rest` or more, or `to`.
    #[inline(always)]
    fn seek(&self, from: usize, to: usize, rest: u64) -> usize {
        let mut s = from;
        while s < to && self.remainder(s) < rest {
            s += 1;
        }
        s
    }

    /// Whether the list has `p`. What most questions need is done without a branch that depends on them.
    #[inline(always)]
    fn has(&self, p: u64) -> bool {
        let c = (p >> self.r) as usize;
        let rest = p & places_below(self.r);
        let base = self.block(c / 64);
        let place = c % 64;
        let runs = self.word(base);
        if runs >> place & 1 == 0 {
            return false;
        }
        let offset = self.word(base + 2) as usize;
        if !PDEP || offset > place {
            return self.holds(self.run(c), rest);
        }
        let all = self.word(base + 1);
        let begun = (runs & !from_place(place)).count_ones();
        let ended = (all & !from_place(place) & from_place(offset)).count_ones();
        let open = begun - ended;
        let ends = all & from_place(place);
        // SAFETY: only reached from functions that are compiled for processors with it.
        let (before, end) =
            unsafe { (_pdep_u64(1 << open >> 1, ends), _pdep_u64(1 << open, ends)) };
        if end == 0 {
            return self.holds(self.run(c), rest);
        }
        let from = if before == 0 {
            place
        } else {
            before.trailing_zeros() as usize + 1
        };
        let many = end.trailing_zeros() as usize + 1 - from;
        let bit = from * self.r;
        let j = base + 3 + bit / 64;
        let row = self.word(j) >> (bit % 64) | self.word(j + 1) << 1 << (63 - bit % 64);
        let other = row ^ rest * self.lanes.ones;
        let same = other.wrapping_sub(self.lanes.ones) & !other & self.lanes.highs;
        let within = same & !(!0 << 1 << (many * self.r - 1).min(63));
        if within != 0 || many <= self.lanes.count {
            return within != 0;
        }
        let from = c - place + from;
        self.holds(
            Run {
                from,
                to: from + many,
                occupied: true,
            },
            rest,
        )
    }

    /// Whether a run has an entry with that remainder.
    #[inline(always)]
    fn holds(&self, run: Run, rest: u64) -> bool {
        let at = self.seek(run.from, run.to, rest);
        at < run.to && self.remainder(at) == rest
    }

    /// The first slot from `x` on where, of the runs that begin before it (or at it, where `WITH`), none goes on: none below the last.
    #[inline(always)]
    fn quiet<const WITH: bool>(&self, x: usize) -> usize {
        let mut x = x;
        while x < self.slots {
            let base = self.block(x / 64);
            let head = x / 64 * 64 + self.word(base + 2) as usize;
            if x < head {
                x = head;
                continue;
            }
            let begun = if WITH {
                places_below(x % 64 + 1)
            } else {
                !from_place(x % 64)
            };
            let runends = self.word(base + 1) & from_place(head % 64);
            let open = (self.word(base) & begun).count_ones()
                - (runends & !from_place(x % 64)).count_ones();
            if open == 0 {
                return x;
            }
            x = self.after(x, open);
        }
        x
    }
}

/// A filter with words of its own: those of its blocks and one more, so that two words can be read from any place.
pub struct Plain<const PDEP: bool> {
    r: usize,
    slots: usize,
    size: usize,
    lanes: Lanes,
    words: Vec<u64>,
}

impl<const PDEP: bool> Plain<PDEP> {
    pub fn new(r: u32, blocks: usize) -> Self {
        let r = r as usize;
        let size = blocks * (r + 3);
        Plain {
            r,
            slots: 64 * blocks,
            size,
            lanes: Lanes::new(r),
            words: vec![0; size + 1],
        }
    }

    pub fn words(&self) -> &[u64] {
        &self.words[..self.size]
    }

    #[inline(always)]
    fn view(&self) -> View<'_, PDEP> {
        View {
            words: &self.words,
            r: self.r,
            slots: self.slots,
            lanes: self.lanes,
        }
    }

    /// Lays out the list: whether there was room.
    pub fn lay_out(&mut self, list: &mut [u64]) -> bool {
        self.words.fill(0);
        list.sort_unstable();
        let r = self.r;
        let stride = r + 3;
        let mut next = 0;
        let mut block = 0;
        for (i, p) in list.iter().enumerate() {
            let c = (p >> r) as usize;
            while block <= c / 64 {
                self.words[block * stride + 2] = next.max(64 * block) as u64 - 64 * block as u64;
                block += 1;
            }
            let s = c.max(next);
            if s >= self.slots {
                self.words.fill(0);
                return false;
            }
            self.words[c / 64 * stride] |= 1 << (c % 64);
            if list.get(i + 1).is_none_or(|p| p >> r != c as u64) {
                self.words[s / 64 * stride + 1] |= 1 << (s % 64);
            }
            put(self.row(s / 64), s % 64 * r, r, p & places_below(r));
            next = s + 1;
        }
        while block < self.slots / 64 {
            self.words[block * stride + 2] = next.max(64 * block) as u64 - 64 * block as u64;
            block += 1;
        }
        true
    }

    /// The words of the remainders of block `b`.
    #[inline(always)]
    fn row(&mut self, b: usize) -> &mut [u64] {
        let base = b * (self.r + 3) + 3;
        &mut self.words[base..base + self.r]
    }

    #[inline(always)]
    fn runends(&mut self, b: usize) -> &mut u64 {
        &mut self.words[b * (self.r + 3) + 1]
    }

    #[inline(always)]
    fn add(&mut self, p: u64) -> bool {
        let c = (p >> self.r) as usize;
        let rest = p & places_below(self.r);
        let view = self.view();
        let run = view.run(c);
        let free = view.quiet::<true>(run.to);
        if free >= self.slots {
            return false;
        }
        let at = view.seek(run.from, run.to, rest);
        let ends = at == run.to;
        if run.occupied && ends {
            *self.runends((at - 1) / 64) &= !(1 << ((at - 1) % 64));
        }
        self.insert(at, free, rest, ends);
        self.words[c / 64 * (self.r + 3)] |= 1 << (c % 64);
        for b in c / 64 + 1..free / 64 + 1 {
            self.words[b * (self.r + 3) + 2] += 1;
        }
        true
    }

    #[inline(always)]
    fn take(&mut self, p: u64) -> bool {
        let c = (p >> self.r) as usize;
        if self.words[c / 64 * (self.r + 3)] >> (c % 64) & 1 == 0 {
            return false;
        }
        let rest = p & places_below(self.r);
        let view = self.view();
        let run = view.run(c);
        let at = view.seek(run.from, run.to, rest);
        if at == run.to || view.remainder(at) != rest {
            return false;
        }
        let gap = view.quiet::<false>(run.to) - 1;
        self.remove(at, gap);
        if run.to == run.from + 1 {
            self.words[c / 64 * (self.r + 3)] &= !(1 << (c % 64));
        } else if at + 1 == run.to {
            *self.runends((at - 1) / 64) |= 1 << ((at - 1) % 64);
        }
        for b in c / 64 + 1..gap / 64 + 1 {
            self.words[b * (self.r + 3) + 2] -= 1;
        }
        true
    }

    /// Moves the entries of the slots `at` to `free - 1` up by one, and writes one into slot `at`.
    #[inline(always)]
    fn insert(&mut self, at: usize, free: usize, rest: u64, ends: bool) {
        let r = self.r;
        for b in (at / 64..free / 64 + 1).rev() {
            let low = if b == at / 64 { at % 64 } else { 0 };
            let high = if b == free / 64 { free % 64 } else { 63 };
            let (rest, ends) = if b == at / 64 {
                (rest, ends)
            } else {
                (
                    self.view().remainder(64 * b - 1),
                    *self.runends(b - 1) >> 63 == 1,
                )
            };
            let row = self.row(b);
            move_up(row, low * r, (high + 1) * r, r);
            put(row, low * r, r, rest);
            let mask = from_place(low) & places_below(high + 1);
            let w = self.runends(b);
            *w = (*w & !mask) | ((*w & mask) << 1 & mask) | u64::from(ends) << low;
        }
    }

    /// Moves the entries of the slots `at + 1` to `gap` down by one, and frees slot `gap`.
    #[inline(always)]
    fn remove(&mut self, at: usize, gap: usize) {
        let r = self.r;
        for b in at / 64..gap / 64 + 1 {
            let low = if b == at / 64 { at % 64 } else { 0 };
            let high = if b == gap / 64 { gap % 64 } else { 63 };
            let (rest, ends) = if b == gap / 64 {
                (0, false)
            } else {
                (
                    self.view().remainder(64 * b + 64),
                    *self.runends(b + 1) & 1 == 1,
                )
            };
            let row = self.row(b);
            move_down(row, low * r, (high + 1) * r, r);
            put(row, high * r, r, rest);
            let mask = from_place(low) & places_below(high + 1);
            let w = self.runends(b);
            *w = (*w & !mask) | ((*w & mask) >> 1 & mask) | u64::from(ends) << high;
        }
    }
}

/// Writes `v` into the `r` bits from bit `from` on.
#[inline(always)]
fn put(row: &mut [u64], from: usize, r: usize, v: u64) {
    let (j, i) = (from / 64, from % 64);
    row[j] = (row[j] & !(places_below(r) << i)) | v << i;
    if i + r > 64 {
        row[j + 1] = (row[j + 1] & !(places_below(r) >> (64 - i))) | v >> (64 - i);
    }
}

/// Moves the bits `from` to `end - r - 1` up by `r`. The `r` bits from `from` on are then any.
#[inline(always)]
fn move_up(row: &mut [u64], from: usize, end: usize, r: usize) {
    let (low, high) = (from / 64, (end - 1) / 64);
    let row = &mut row[low..high + 1];
    let kept = !from_place(from % 64);
    let top = places_below(end - 64 * high);
    let n = high - low;
    let over = row[n] & !top;
    let under = row[0] & kept;
    for j in (1..n + 1).rev() {
        row[j] = row[j] << r | row[j - 1] >> (64 - r);
    }
    row[0] = row[0] << r & !kept | under;
    row[n] = row[n] & top | over;
}

/// Moves the bits `from + r` to `end - 1` down by `r`. The `r` bits before `end` are then any.
#[inline(always)]
fn move_down(row: &mut [u64], from: usize, end: usize, r: usize) {
    let (low, high) = (from / 64, (end - 1) / 64);
    let row = &mut row[low..high + 1];
    let kept = !from_place(from % 64);
    let top = places_below(end - 64 * high);
    let n = high - low;
    let over = row[n] & !top;
    let under = row[0] & kept;
    for j in 0..n {
        row[j] = row[j] >> r | row[j + 1] << (64 - r);
    }
    row[n] >>= r;
    row[0] = row[0] & !kept | under;
    row[n] = row[n] & top | over;
}

/// What a filter does with a list of fingerprints: it counts those that are held, or that it takes in, or out.
pub trait Calls {
    fn ask(&self, list: &[u64]) -> u64;
    fn add_all(&mut self, list: &[u64]) -> u64;
    fn take_all(&mut self, list: &[u64]) -> u64;
}

/// Counts those of a list that a call says yes to, by a loop that is compiled for processors with these features.
macro_rules! count {
    ($features:literal, $of:expr, $list:expr, |$filter:ident: $type:ty| $by:expr, $call:ident) => {{
        #[target_feature(enable = $features)]
        fn go($filter: $type, list: &[u64]) -> u64 {
            let by = $by;
            let mut n = 0;
            for p in list {
                n += u64::from(by.$call(*p));
            }
            n
        }
        // SAFETY: `main` stops on a processor that lacks these.
        unsafe { go($of, $list) }
    }};
}

macro_rules! calls {
    ($pdep:literal, $features:literal) => {
        impl Calls for Plain<$pdep> {
            fn ask(&self, list: &[u64]) -> u64 {
                count!($features, self, list, |it: &Plain<$pdep>| it.view(), has)
            }

            fn add_all(&mut self, list: &[u64]) -> u64 {
                count!($features, self, list, |it: &mut Plain<$pdep>| it, add)
            }

            fn take_all(&mut self, list: &[u64]) -> u64 {
                count!($features, self, list, |it: &mut Plain<$pdep>| it, take)
            }
        }
    };
}

calls!(false, "popcnt,sse4.2");
calls!(true, "popcnt,sse4.2,bmi1,bmi2,lzcnt");
