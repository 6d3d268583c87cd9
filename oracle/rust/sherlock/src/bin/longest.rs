//! Looks for long lists on the Rust by simulated annealing: a board is changed a little at a time, and a change that makes its list shorter
//! is kept the more rarely the more it loses and the later it comes. The length is the number of entries pushed, beyond 47 too.
//!   longest list                 -> "<situation> <most men>", a line each
//!   longest SITUATION SEED STEPS -> tries STEPS boards, and then "<length> <fitting> <text>": the longest list, how many of the boards fit the
//!                                   situation, and the first of them with such a list; "none" where none fits
//! The same SITUATION, SEED and STEPS try the same boards. A board fits only if document 01 accepts it (1 to 6); its state is none or unknown.
//! The retractor is the side whose list is counted: the one not to move, and where the board is flipped for its list, the other. It has at
//! most the situation's men, and the side against it any number.
use chess::*;
use sherlock::utils::is_attacked;
use sherlock::*;
use std::ops::RangeInclusive;
use std::str::FromStr;

const USAGE: &str = "usage: longest list\n       longest SITUATION SEED STEPS";

/// Boards of one climb; then another start.
const CLIMB: u64 = 20_000;
/// The loss, in entries, that is kept with a chance of 1/e: at the first board of a climb, and at its last.
const HOT: f64 = 1.5;
const COLD: f64 = 0.05;
/// A start has fewer men than this besides those that its situation asks for.
const SPRINKLED: usize = 14;

struct Situation {
    name: &'static str,
    /// The most men that the retractor may have.
    most: usize,
    /// How many checkers there may be. A start has the fewest.
    checkers: RangeInclusive<u32>,
    /// Whether the retractor's king has castled at a start.
    castled: bool,
    /// Whether the board is flipped for its list.
    flipped: bool,
    /// The list; none where the Rust does not come to build it.
    list: fn(&RetractableBoard) -> Option<RetractionGen>,
    /// What else a board must have.
    fits: fn(&Seen) -> bool,
    /// What the climb goes by, and from where on a board fits.
    height: fn(&Seen) -> usize,
    least: usize,
}

const ANY: Situation = Situation {
    name: "",
    most: 16,
    checkers: 0..=64,
    castled: false,
    flipped: false,
    list: whole,
    fits: |_| true,
    height: |seen| seen.entries.len(),
    least: 0,
};

const SITUATIONS: [Situation; 12] = [
    Situation { name: "calm", checkers: 0..=0, ..ANY },
    Situation { name: "uncastling", checkers: 0..=0, castled: true, fits: Seen::uncastles, ..ANY },
    Situation { name: "pawn-or-last-rank", checkers: 1..=1, fits: Seen::pawn_or_last_rank, ..ANY },
    Situation { name: "other-checker", checkers: 1..=1, fits: |seen| !seen.pawn_or_last_rank(), ..ANY },
    Situation { name: "checker-and-uncastling", checkers: 1..=1, castled: true, fits: Seen::uncastles, ..ANY },
    Situation { name: "two-checkers", checkers: 2..=2, ..ANY },
    Situation { name: "three-checkers", checkers: 3..=64, ..ANY },
    Situation { name: "limited", checkers: 0..=0, list: limited, ..ANY },
    Situation { name: "turned-limited", checkers: 0..=0, flipped: true, list: turned_limited, ..ANY },
    Situation { name: "turned", flipped: true, list: turned, ..ANY },
    Situation { name: "seventeen", most: 17, ..ANY },
    Situation { name: "king-of-three", castled: true, fits: Seen::uncastles, height: Seen::king_length, least: 3, ..ANY },
];

fn whole(board: &RetractableBoard) -> Option<RetractionGen> {
    Some(RetractionGen::new_legal(board))
}

fn limited(board: &RetractableBoard) -> Option<RetractionGen> {
    Some(RetractionGen::oracle_limited(board))
}

fn turned(board: &RetractableBoard) -> Option<RetractionGen> {
    whole(&flipped(board))
}

/// The limited test turns a board only where its first list yields a retraction.
fn turned_limited(board: &RetractableBoard) -> Option<RetractionGen> {
    limited(board)?.next()?;
    limited(&flipped(board))
}

fn flipped(board: &RetractableBoard) -> RetractableBoard {
    let mut board = *board;
    board.flip();
    board
}

/// Whether document 01 accepts a board of a setup, which passes 1 to 5: the king of the side not to move is not attacked (6).
fn accepted(board: &RetractableBoard) -> bool {
    let mover = board.side_to_move();
    !is_attacked(board, board.king_square(!mover), mover)
}

type Entry = (usize, u64, u8, bool); // source, targets, kind of uncapture, mark
const FORBIDDEN: u8 = 2; // the kind of uncapture of an un-castling, and of no other entry of a king

/// A board, not flipped, and the entries of its list.
struct Seen {
    board: RetractableBoard,
    entries: Vec<Entry>,
}

impl Seen {
    fn of_king(&self) -> impl Iterator<Item = &Entry> {
        let king = self.board.king_square(!self.board.side_to_move()).to_index();
        self.entries.iter().filter(move |entry| entry.0 == king)
    }

    fn king_length(&self) -> usize {
        self.of_king().count()
    }

    fn uncastles(&self) -> bool {
        self.of_king().any(|entry| entry.2 == FORBIDDEN)
    }

    /// Whether a checker is a pawn or stands on the retractor's last rank.
    fn pawn_or_last_rank(&self) -> bool {
        let last_rank = get_rank(self.board.side_to_move().to_my_backrank());
        self.board.checkers() & (self.board.pieces(Piece::Pawn) | last_rank) != EMPTY
    }
}

/// The generator SplitMix64.
struct Random(u64);

impl Random {
    fn next(&mut self) -> u64 {
        self.0 = self.0.wrapping_add(0x9E3779B97F4A7C15);
        let x = (self.0 ^ (self.0 >> 30)).wrapping_mul(0xBF58476D1CE4E5B9);
        let x = (x ^ (x >> 27)).wrapping_mul(0x94D049BB133111EB);
        x ^ (x >> 31)
    }

    fn below(&mut self, n: usize) -> usize {
        (self.next() % n as u64) as usize
    }

    fn one_in(&mut self, n: usize) -> bool {
        self.below(n) == 0
    }

    /// From 0 to below 1.
    fn unit(&mut self) -> f64 {
        (self.next() >> 11) as f64 / (1u64 << 53) as f64
    }

    fn choose<T: Copy>(&mut self, of: &[T]) -> T {
        of[self.below(of.len())]
    }

    /// A square of a set that is not empty.
    fn member(&mut self, mut set: BitBoard) -> usize {
        let place = self.below(set.popcnt() as usize);
        set.nth(place).unwrap().to_index()
    }
}

const NOBODY: u8 = b'.';
const PAWN: u8 = b'P';
const ROOK: u8 = b'R';
const KING: u8 = b'K';
const PUT: &[u8] = b"PPNBRQ"; // what a man that is put on a board may be, pawns twice as often
const CHECKERS: &[u8] = b"PNBRQ";
const RIGHTS: [(char, usize, usize); 4] = [('K', 4, 7), ('Q', 4, 0), ('k', 60, 63), ('q', 60, 56)]; // with the homes of king and rook
const EDGES: BitBoard = BitBoard(0xFF00_0000_0000_00FF); // ranks 1 and 8
const SIXTH: usize = 5; // ranks and files are counted from 0
const LAST: usize = 7;
const CASTLED: [(usize, usize); 2] = [(6, 5), (2, 3)]; // the files of a king that has castled and of its rook
const OTHER_SIDE: usize = 6; // one in so many men put on a board is not the retractor's

/// One king a side. A right of `rights` is held where king and rook are at home.
#[derive(Clone)]
struct Setup {
    men: [u8; 64], // letters of a text, a1 first
    retractor: Color,
    mover: Color,
    rights: usize, // bits in the order of RIGHTS
    unknown: bool,
}

fn man(kind: u8, side: Color) -> u8 {
    if side == Color::White {
        kind
    } else {
        kind.to_ascii_lowercase()
    }
}

fn kind(man: u8) -> u8 {
    man.to_ascii_uppercase()
}

impl Setup {
    /// Kings and checkers as the situation asks for them, and some men more.
    fn start(situation: &Situation, random: &mut Random) -> Setup {
        let retractor = random.choose(&[Color::White, Color::Black]);
        let mover = if situation.flipped { retractor } else { !retractor };
        let mut setup = Setup { men: [NOBODY; 64], retractor, mover, rights: 0, unknown: false };
        setup.redraw_state(random);
        let checkers = *situation.checkers.start();
        if situation.castled {
            setup.castle(checkers > 0, random);
        } else {
            setup.place(KING, retractor, !EMPTY, random);
            setup.place(KING, !retractor, !EMPTY, random);
            (0..checkers).for_each(|_| setup.check(random));
        }
        for _ in 0..random.below(SPRINKLED) {
            setup = setup.after(Setup::put, situation.most, random);
        }
        setup
    }

    /// The retractor's king and rook as they stand after castling. The other king is anywhere, or in check by the rook.
    fn castle(&mut self, check: bool, random: &mut Random) {
        let (king, rook) = random.choose(&CASTLED);
        self.men[self.at(king, 0)] = man(KING, self.retractor);
        self.men[self.at(rook, 0)] = man(ROOK, self.retractor);
        let squares = if check { get_file(File::from_index(rook)) } else { !EMPTY };
        self.place(KING, !self.retractor, squares, random);
    }

    /// One checker more, unless its kind finds no square to check from.
    fn check(&mut self, random: &mut Random) {
        let (kind, other) = (random.choose(CHECKERS), !self.retractor);
        let king = self.places(|m| m == man(KING, other)).to_square();
        let occupied = self.places(|m| m != NOBODY);
        let from = match kind {
            PAWN => get_pawn_attacks(king, other, !EDGES),
            b'N' => get_knight_moves(king),
            b'B' => get_bishop_moves(king, occupied),
            ROOK => get_rook_moves(king, occupied),
            _ => get_bishop_moves(king, occupied) | get_rook_moves(king, occupied),
        };
        self.place(kind, self.retractor, from, random);
    }

    /// A man on an empty square of a set, if there is one.
    fn place(&mut self, kind: u8, side: Color, set: BitBoard, random: &mut Random) {
        let empty = set & self.places(|m| m == NOBODY);
        if empty != EMPTY {
            self.men[random.member(empty)] = man(kind, side);
        }
    }

    /// The setup after a change that leaves it sound.
    fn after(&self, change: fn(&mut Setup, &mut Random), most: usize, random: &mut Random) -> Setup {
        loop {
            let mut next = self.clone();
            change(&mut next, random);
            if next.sound(most) {
                return next;
            }
        }
    }

    /// No pawn on ranks 1 and 8, and the retractor has at most so many men.
    fn sound(&self, most: usize) -> bool {
        let own = self.places(|m| m != NOBODY && m == man(kind(m), self.retractor));
        own.popcnt() as usize <= most && self.places(|m| kind(m) == PAWN) & EDGES == EMPTY
    }

    /// One change or two.
    fn change(&mut self, random: &mut Random) {
        for _ in 0..1 + random.below(2) {
            match random.below(7) {
                0..=2 => self.shift(random),
                3 => self.take(random),
                4..=5 => self.put(random),
                _ => self.redraw_state(random),
            }
        }
    }

    /// A man changes places with what is on another square.
    fn shift(&mut self, random: &mut Random) {
        let from = random.member(self.places(|m| m != NOBODY));
        self.men.swap(from, random.below(64));
    }

    /// A man other than a king leaves the board.
    fn take(&mut self, random: &mut Random) {
        let men = self.places(|m| m != NOBODY && kind(m) != KING);
        if men != EMPTY {
            self.men[random.member(men)] = NOBODY;
        }
    }

    /// A man is put on a square where no king is, half of them where they may have most entries: pawns on the sixth rank, others on the last.
    fn put(&mut self, random: &mut Random) {
        let side = if random.one_in(OTHER_SIDE) { !self.retractor } else { self.retractor };
        let new = random.choose(PUT);
        let rank = if new == PAWN { SIXTH } else { LAST };
        let square = if random.one_in(2) { random.below(64) } else { self.at(random.below(8), rank) };
        if kind(self.men[square]) != KING {
            self.men[square] = man(new, side);
        }
    }

    /// Any rights, and either state.
    fn redraw_state(&mut self, random: &mut Random) {
        self.rights = random.below(1 << RIGHTS.len());
        self.unknown = random.one_in(2);
    }

    /// A square by its file and by its rank as the retractor counts it.
    fn at(&self, file: usize, rank: usize) -> usize {
        8 * if self.retractor == Color::White { rank } else { LAST - rank } + file
    }

    /// The squares whose man passes a test.
    fn places(&self, test: impl Fn(u8) -> bool) -> BitBoard {
        BitBoard(self.men.iter().rev().fold(0, |set, m| (set << 1) | test(*m) as u64))
    }

    fn board(&self) -> RetractableBoard {
        let mut board: RetractableBoard = Board::from_str(&self.text()).expect("a text that the Rust reads").into();
        if self.unknown {
            board.set_uncertain_ep();
        }
        board
    }

    /// A text that the Rust reads, each empty square counted by itself.
    fn text(&self) -> String {
        let mut text = String::with_capacity(80);
        for rank in self.men.chunks(8).rev() {
            text.extend(rank.iter().map(|m| if *m == NOBODY { '1' } else { *m as char }));
            text.push('/');
        }
        text.pop();
        text += if self.mover == Color::White { " w " } else { " b " };
        text.extend((0..RIGHTS.len()).filter(|i| self.holds(*i)).map(|i| RIGHTS[i].0));
        text + " -"
    }

    fn holds(&self, right: usize) -> bool {
        let (letter, king, rook) = RIGHTS[right];
        let side = if letter.is_ascii_uppercase() { Color::White } else { Color::Black };
        (self.rights >> right) & 1 == 1 && self.men[king] == man(KING, side) && self.men[rook] == man(ROOK, side)
    }
}

struct Find {
    height: usize,
    length: usize,
    board: RetractableBoard,
}

struct Search<'a> {
    situation: &'a Situation,
    random: Random,
    left: u64, // boards still to be tried
    fitting: u64,
    best: Option<Find>,
}

impl Search<'_> {
    /// One climb. It begins at a start that has a height, and keeps to boards that have one.
    fn climb(&mut self) {
        let mut setup = Setup::start(self.situation, &mut self.random);
        let Some(mut height) = self.height(&setup) else { return };
        for i in 0..CLIMB.min(self.left) {
            let heat = HOT + (COLD - HOT) * i as f64 / CLIMB as f64;
            let next = setup.after(Setup::change, self.situation.most, &mut self.random);
            match self.height(&next) {
                Some(reached) if self.keeps(height, reached, heat) => (setup, height) = (next, reached),
                _ => {}
            }
        }
    }

    fn keeps(&mut self, height: usize, reached: usize, heat: f64) -> bool {
        reached >= height || self.random.unit() < ((reached as f64 - height as f64) / heat).exp()
    }

    /// Tries a board: its height, if it is accepted and as the situation asks.
    fn height(&mut self, setup: &Setup) -> Option<usize> {
        self.left -= 1;
        let board = setup.board();
        if !self.situation.checkers.contains(&board.checkers().popcnt()) || !accepted(&board) {
            return None;
        }
        let seen = Seen { board, entries: (self.situation.list)(&board)?.oracle_entries() };
        if !(self.situation.fits)(&seen) {
            return None;
        }
        let height = (self.situation.height)(&seen);
        if height >= self.situation.least {
            self.note(height, seen);
        }
        Some(height)
    }

    fn note(&mut self, height: usize, seen: Seen) {
        self.fitting += 1;
        match &self.best {
            Some(best) if best.height >= height => {}
            _ => self.best = Some(Find { height, length: seen.entries.len(), board: seen.board }),
        }
    }
}

fn search(place: usize, seed: u64, steps: u64) -> String {
    let random = Random(Random(seed).next() ^ place as u64); // each situation has its own stream
    let mut search = Search { situation: &SITUATIONS[place], random, left: steps, fitting: 0, best: None };
    while search.left > 0 {
        search.climb();
    }
    match search.best {
        Some(find) => format!("{} {} {}", find.length, search.fitting, find.board),
        None => "none".into(),
    }
}

/// What is printed for these arguments; none where they are not of the usage.
fn answer(arguments: &[String]) -> Option<String> {
    match arguments {
        [word] if word == "list" => Some(SITUATIONS.map(|s| format!("{} {}", s.name, s.most)).join("\n")),
        [name, seed, steps] => {
            let place = SITUATIONS.iter().position(|s| s.name == name)?;
            Some(search(place, seed.parse().ok()?, steps.parse().ok()?))
        }
        _ => None,
    }
}

fn main() {
    let arguments: Vec<String> = std::env::args().skip(1).collect();
    match answer(&arguments) {
        Some(said) => println!("{}", said),
        None => {
            eprintln!("{}", USAGE);
            std::process::exit(2);
        }
    }
}
