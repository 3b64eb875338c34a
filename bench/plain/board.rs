//! Boards packed into a number, moves and ranks.

/// The most stones of a board.
pub const MOST: usize = 24;
/// The bits of pit 0.
const PIT: u64 = 31;
const ALL: u64 = (1 << 60) - 1;
/// The mover's pits.
const OWN: u64 = (1 << 30) - 1;
/// One in each pit. A board's product with it has in each pit's place the sum of the pits up to it,
/// since no sum is above 31.
const ONES: u64 = ALL / PIT;

/// Twelve pits of five bits each, pit 0 lowest.
#[derive(Clone, Copy)]
pub struct Board(u64);

impl Board {
    #[inline(always)]
    pub fn pit(self, pit: usize) -> usize {
        (self.0 >> (5 * pit) & PIT) as usize
    }

    #[inline(always)]
    pub fn stones(self) -> usize {
        (self.0.wrapping_mul(ONES) >> 55 & PIT) as usize
    }

    /// The board as the other player sees it.
    #[inline(always)]
    pub fn turned(self) -> Self {
        Board((self.0 >> 30 | self.0 << 30) & ALL)
    }

    #[inline(always)]
    pub fn has_food(self) -> bool {
        self.0 > OWN
    }

    /// With these stones more in the pit.
    #[inline(always)]
    pub fn with(self, pit: usize, stones: usize) -> Self {
        Board(self.0 + ((stones as u64) << (5 * pit)))
    }

    /// With one stone less in the pit.
    #[inline(always)]
    pub fn less_one(self, pit: usize) -> Self {
        Board(self.0 - (1 << (5 * pit)))
    }

    /// The pits that a sowing captures which gives this board and ends in this pit, 0 for none.
    #[inline(always)]
    pub fn captured(self, last: usize) -> u64 {
        let mut run = 0;
        let mut pit = last;
        while pit >= 6 && self.pit(pit) & 30 == 2 {
            run |= PIT << (5 * pit);
            pit -= 1;
        }
        if self.0 & !run > OWN { run } else { 0 }
    }

    /// What the mover gains where no move is legal.
    pub fn gain_at_end(self) -> i8 {
        let stones = self.stones() as i8;
        if self.0 & OWN == 0 { -stones } else { stones }
    }

    /// The next board by rank.
    #[inline(always)]
    pub fn successor(self) -> Option<Self> {
        let last = (63 - (self.0 | 1).leading_zeros()) / 5;
        if last == 0 {
            return None;
        }
        let stones = self.0 >> (5 * last);
        let front = self.0 ^ stones << (5 * last);
        Some(Board(
            front + (1 << (5 * (last - 1))) + ((stones - 1) << 55),
        ))
    }
}

/// The boards of a level, in order of rank.
pub fn boards(stones: usize) -> impl Iterator<Item = Board> {
    std::iter::successors(Some(Board((stones as u64) << 55)), |board| {
        board.successor()
    })
}

/// What a sowing adds to the pits, and the pit that it ends in.
#[derive(Clone, Copy)]
struct Sowing {
    added: u64,
    last: usize,
}

impl Sowing {
    fn new(pit: usize, stones: usize) -> Self {
        let laps = (0..12).cycle().skip(pit + 1).filter(|&next| next != pit);
        let mut sowing = Sowing {
            added: 0,
            last: pit,
        };
        for next in laps.take(stones) {
            sowing.added += 1 << (5 * next);
            sowing.last = next;
        }
        sowing
    }
}

/// The numbers by which boards of one level are ranked: of the board of this rank from the last, how
/// many boards are larger, told by the sums of two pits and all before them at once.
struct Ranks {
    last: u32,
    pairs: Box<[[u32; 1024]; 6]>,
}

impl Ranks {
    fn new(fewer: &[[u32; 32]; 12], stones: usize) -> Self {
        let mut pairs = Box::new([[0; 1024]; 6]);
        let larger = |pit: usize, before: usize| match stones.checked_sub(before) {
            Some(right) if pit < 11 => fewer[11 - pit][right],
            _ => 0,
        };
        for (pair, row) in pairs.iter_mut().enumerate() {
            for (sums, cell) in row.iter_mut().enumerate() {
                *cell = larger(2 * pair, sums & 31).wrapping_add(larger(2 * pair + 1, sums >> 5));
            }
        }
        Ranks {
            last: fewer[11][stones + 1] - 1,
            pairs,
        }
    }
}

/// Sowings, and the numbers by which boards are ranked.
pub struct Game {
    sowings: [[Sowing; 32]; 6],
    levels: Vec<Ranks>,
    /// At `[k][n]`, the ways to lay fewer than n stones in k pits.
    fewer: [[u32; 32]; 12],
}

impl Game {
    pub fn new() -> Self {
        let mut fewer = [[0; 32]; 12];
        fewer[0] = std::array::from_fn(|stones| u32::from(stones > 0));
        for pits in 1..12 {
            for stones in 1..=MOST + 1 {
                fewer[pits][stones] = fewer[pits][stones - 1] + fewer[pits - 1][stones];
            }
        }
        Game {
            sowings: std::array::from_fn(|pit| {
                std::array::from_fn(|stones| Sowing::new(pit, stones.min(MOST)))
            }),
            levels: (0..=MOST)
                .map(|stones| Ranks::new(&fewer, stones))
                .collect(),
            fewer,
        }
    }

    pub fn size(&self, stones: usize) -> usize {
        self.fewer[11][stones + 1] as usize
    }

    /// The board after the move and the stones captured, if the move is legal.
    #[inline(always)]
    pub fn play(&self, board: Board, pit: usize) -> Option<(Board, usize)> {
        let stones = board.pit(pit);
        if stones == 0 || !(board.has_food() || pit + stones >= 6) {
            return None;
        }
        let Sowing { added, last } = self.sowings[pit][stones];
        let sown = Board((board.0 & !(PIT << (5 * pit))) + added);
        let captured = sown.captured(last);
        let next = Board(sown.0 & !captured).turned();
        Some((next, Board(sown.0 & captured).stones()))
    }

    /// The rank of a board of so many stones.
    #[inline(always)]
    pub fn rank(&self, stones: usize, board: Board) -> usize {
        let Ranks { last, pairs } = &self.levels[stones];
        let sums = board.0.wrapping_mul(ONES);
        let larger = |pair: usize| pairs[pair][(sums >> (10 * pair) & 1023) as usize];
        let low = larger(0).wrapping_add(larger(1)).wrapping_add(larger(2));
        let high = larger(3).wrapping_add(larger(4)).wrapping_add(larger(5));
        last.wrapping_sub(low.wrapping_add(high)) as usize
    }

    pub fn unrank(&self, stones: usize, rank: usize) -> Board {
        let mut larger = self.levels[stones].last - rank as u32;
        let mut left = stones;
        let mut board = Board(0);
        for pit in 0..11 {
            let fewer = &self.fewer[11 - pit];
            let mut right = left;
            while fewer[right] > larger {
                right -= 1;
            }
            larger -= fewer[right];
            board = board.with(pit, left - right);
            left = right;
        }
        board.with(11, left)
    }
}
