//! One text a line (assumed accepted; pawn's own square, `-` or `?`), one answer a line.
//!   ported list     -> "<entries> <packed> <packed> .."      (the ported list, in order; entries may exceed 47)
//!   ported count    -> how many retractions the list has, each of them made and packed as by `list` and none printed
//!   ported unmake   -> input "<text>\t<packed>", answer: the un-made board, its checkers and pins as hex
//!   ported entries -> the six uncapture masks (hex), then each entry source:targets(hex):O|N|F|E (optional, necessary, forbidden, un-en-passant):=|.
//!   ported tables   -> (no input) between/line for each pair, knight/king/pawn/ray sets
//!   ported sliders  -> input: an occupied set (16 hex digits), answer: for each square a line "rook <square> <occupied> <set>" of what a rook
//!                      there reaches, and such a line of a bishop and of a queen
//!   ported limited  -> "<0|1> <longest list built>"
//!   ported masks    -> the six uncapture masks (hex) alone
//!   ported attacked -> two hex sets: squares attacked by White, by Black; of "<text>\t<square>\t<w|b>": 1 or 0
//!   ported info     -> printed board, checkers, pins
//!   ported piece    -> input "<text>\t<square>", answer: the letter of the kind there, `.` for none
//!   ported setep    -> input "<text>\t<state>" (`-`, `?` or a square's number), answer: the board with that state
//!   ported uncertain -> the board after set_uncertain_ep
//!   ported sequence -> what `next` answers, packed, and "end" three times
//!   ported cursor   -> a cursor in the form of `brute cursor`, with at most 47 entries and every source a square: what `next` answers and the
//!                      cursor after it; "malformed" for any other
use chess::*;
use sherlock::utils::is_attacked;
use sherlock::*;
use std::hint::black_box;
use std::io::{BufRead, Write};
use std::str::FromStr;
fn read(t: &str) -> RetractableBoard {
    let w: Vec<&str> = t.split(' ').collect();
    let mut b: RetractableBoard = Board::from_str(&format!("{} {} {} -", w[0], w[1], w[2])).unwrap().into();
    match w[3] {
        "-" => {}
        "?" => b.set_uncertain_ep(),
        s => {
            let s = s.as_bytes();
            b.set_en_passant(EnPassantFlag::Some(Square::new((s[1] - b'1') * 8 + s[0] - b'a')))
        }
    }
    b
}
fn state(t: &str) -> EnPassantFlag {
    match t {
        "-" => EnPassantFlag::None,
        "?" => EnPassantFlag::Any,
        n => EnPassantFlag::Some(Square::new(n.parse().unwrap())),
    }
}
type Entry = (usize, u64, u8, bool);
const LETTERS: &str = "ONFE";
fn entry(t: &str) -> (usize, Entry) {
    let w: Vec<&str> = t.split(':').collect();
    let kind = LETTERS.find(w[3]).unwrap() as u8;
    (w[0].parse().unwrap(), (w[1].parse().unwrap(), u64::from_str_radix(w[2], 16).unwrap(), kind, w[4] == "="))
}
/// One press of a cursor: the answer and the cursor after it.
fn press(l: &str) -> String {
    let w: Vec<&str> = l.split(' ').collect();
    let (len, index, uncaptured): (usize, usize, usize) = (w[0].parse().unwrap(), w[1].parse().unwrap(), w[2].parse().unwrap());
    let masks: Vec<u64> = w[3..9].iter().map(|m| u64::from_str_radix(m, 16).unwrap()).collect();
    let empty: Entry = (0, 0, 0, false);
    let mut entries = [empty; 47];
    for (place, e) in w[9..].iter().map(|t| entry(t)) {
        if place < 47 {
            entries[place] = e;
        }
    }
    if len > 47 || entries[..len].iter().any(|e| e.0 > 63) {
        return "malformed".into();
    }
    let mut g = RetractionGen::oracle_cursor(&entries[..len], index, uncaptured, &masks);
    let mut out = match g.next() {
        None => "end".into(),
        Some(r) => {
            let n = pack(&r);
            format!("{},{},{},{}", n % 64, n / 64 % 64, n / 4096 % 8, n >> 15)
        }
    };
    entries[..len].copy_from_slice(&g.oracle_entries());
    let (index, uncaptured) = g.oracle_places();
    out += &format!(" {} {} {}", len, index, uncaptured);
    out.extend(g.oracle_masks().iter().map(|m| format!(" {:016x}", m)));
    for (i, (s, t, k, u)) in entries.iter().enumerate().filter(|(_, e)| **e != empty) {
        out += &format!(" {}:{}:{:016x}:{}:{}", i, s, t, &LETTERS[*k as usize..*k as usize + 1], if *u { "=" } else { "." });
    }
    out
}
const KINDS: [Option<Piece>; 6] = [None, Some(Piece::Pawn), Some(Piece::Knight), Some(Piece::Bishop), Some(Piece::Rook), Some(Piece::Queen)];
fn pack(r: &ChessRetraction) -> usize {
    r.source().to_index() + 64 * r.target().to_index() + 4096 * r.uncaptured().map_or(0, |p| p.to_index() + 1) + if r.unpromotion() { 32768 } else { 0 }
}
/// What the sliders reach from one square, a line each.
fn sliders(a: u8, occupied: u64) -> [String; 3] {
    let rook = get_rook_moves(Square::new(a), BitBoard(occupied)).0;
    let bishop = get_bishop_moves(Square::new(a), BitBoard(occupied)).0;
    [("rook", rook), ("bishop", bishop), ("queen", rook | bishop)].map(|(name, set)| format!("{} {} {:016x} {:016x}", name, a, occupied, set))
}
fn main() {
    let mode = std::env::args().nth(1).unwrap_or("list".into());
    if mode == "tables" {
        for a in 0..64 { for b in 0..64 { println!("between {} {} {:016x}", a, b, between(Square::new(a), Square::new(b)).0) } }
        for a in 0..64 { for b in 0..64 { println!("line {} {} {:016x}", a, b, line(Square::new(a), Square::new(b)).0) } }
        for a in 0..64 {
            let s = Square::new(a);
            println!("knight {} {:016x}", a, get_knight_moves(s).0);
            println!("king {} {:016x}", a, get_king_moves(s).0);
            println!("rookrays {} {:016x}", a, get_rook_rays(s).0);
            println!("bishoprays {} {:016x}", a, get_bishop_rays(s).0);
            println!("pawnw {} {:016x}", a, get_pawn_attacks(s, Color::White, !EMPTY).0);
            println!("pawnb {} {:016x}", a, get_pawn_attacks(s, Color::Black, !EMPTY).0);
        }
        return;
    }
    let stdin = std::io::stdin().lock();
    let mut out = std::io::BufWriter::new(std::io::stdout().lock());
    for l in stdin.lines() {
        let l = l.unwrap();
        arrayvec::take_high_water();
        match mode.as_str() {
            "list" => {
                let b = read(&l);
                let g = RetractionGen::new_legal(&b);
                write!(out, "{}", arrayvec::take_high_water()).unwrap();
                for r in g {
                    write!(out, " {}", pack(&r)).unwrap();
                }
            }
            "count" => {
                let b = read(&l);
                let n = RetractionGen::new_legal(&b).map(|r| black_box(pack(&r))).count();
                write!(out, "{}", n).unwrap();
            }
            "entries" => {
                let b = read(&l);
                let g = RetractionGen::new_legal(&b);
                let m: Vec<String> = g.oracle_masks().iter().map(|x| format!("{:016x}", x)).collect();
                write!(out, "{}", m.join(" ")).unwrap();
                for (s, t, k, u) in g.oracle_entries() {
                    write!(out, " {}:{:016x}:{}:{}", Square::new(s as u8), t, ["O", "N", "F", "E"][k as usize], if u { "=" } else { "." }).unwrap();
                }
            }
            "masks" => {
                let m: Vec<String> = RetractionGen::new_legal(&read(&l)).oracle_masks().iter().map(|x| format!("{:016x}", x)).collect();
                write!(out, "{}", m.join(" ")).unwrap();
            }
            "limited" => {
                let b = read(&l);
                let x = RetractionGen::is_limited_in_retractions(&b);
                write!(out, "{} {}", x as u8, arrayvec::take_high_water()).unwrap();
            }
            "info" => {
                let b = read(&l);
                write!(out, "{} {:016x} {:016x}", b, b.checkers().0, b.pinned().0).unwrap();
            }
            "attacked" if l.contains('\t') => {
                let w: Vec<&str> = l.split('\t').collect();
                let color = if w[2] == "w" { Color::White } else { Color::Black };
                write!(out, "{}", is_attacked(&read(w[0]), Square::new(w[1].parse().unwrap()), color) as u8).unwrap();
            }
            "attacked" => {
                let b = read(&l);
                let mut m = [0u64; 2];
                for i in 0..64 {
                    for c in [Color::White, Color::Black] {
                        if is_attacked(&b, Square::new(i), c) {
                            m[c.to_index()] |= 1 << i
                        }
                    }
                }
                write!(out, "{:016x} {:016x}", m[0], m[1]).unwrap();
            }
            "piece" => {
                let (t, q) = l.split_once('\t').unwrap();
                let kind = read(t).piece_on(Square::new(q.parse().unwrap()));
                write!(out, "{}", kind.map_or(".".into(), |k| k.to_string(Color::White))).unwrap();
            }
            "setep" => {
                let (t, q) = l.split_once('\t').unwrap();
                let mut b = read(t);
                b.set_en_passant(state(q));
                write!(out, "{}", b).unwrap();
            }
            "uncertain" => {
                let mut b = read(&l);
                b.set_uncertain_ep();
                write!(out, "{}", b).unwrap();
            }
            "sequence" => {
                let mut g = RetractionGen::new_legal(&read(&l));
                let mut ends = 0;
                while ends < 3 {
                    match g.next() {
                        Some(r) => write!(out, "{} ", pack(&r)).unwrap(),
                        None => {
                            ends += 1;
                            write!(out, "end{}", if ends < 3 { " " } else { "" }).unwrap();
                        }
                    }
                }
            }
            "cursor" => write!(out, "{}", press(&l)).unwrap(),
            "sliders" => {
                let occupied = u64::from_str_radix(&l, 16).unwrap();
                let lines: Vec<String> = (0..64).flat_map(|a| sliders(a, occupied)).collect();
                write!(out, "{}", lines.join("\n")).unwrap();
            }
            "unmake" => {
                let (t, p) = l.split_once('\t').unwrap();
                let p: usize = p.parse().unwrap();
                let b = read(t);
                let r = ChessRetraction::new(Square::new((p % 64) as u8), Square::new((p / 64 % 64) as u8), KINDS[p / 4096 % 8], p >= 32768);
                let e = b.make_retraction_new(r);
                write!(out, "{} {:016x} {:016x}", e, e.checkers().0, e.pinned().0).unwrap();
            }
            _ => panic!("mode"),
        }
        writeln!(out).unwrap();
    }
}
