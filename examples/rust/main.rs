//! A dredge track searched against an outfall, step by step, and then a whole sheet answered in instalments, through the C interface of
//! `include/lovgurshem.h`. Prints the report as the program clearance prints it.
//!
//!     main SHEET      SHEET a file as the program clearance reads it
//!
//! Built with: rustc -O -L target/staticlib examples/rust/main.rs

/// What `include/lovgurshem.h` declares.
mod sys {
    #[link(name = "lovgurshem", kind = "static")]
    extern "C" {
        pub fn lovgurshem_next(
            sheet: *const u8, sheet_length: usize, cursor: *mut u64, cursor_length: usize, out: *mut u8, out_length: usize,
        ) -> usize;
        pub fn lovgurshem_examine(
            lo1: f64, hi1: f64, lo2: f64, hi2: f64, gap: f64, splits: u32,
            closed1: u32, degree1: u32, knots1: *const f64, knots1_length: usize, mults1: *const u32, mults1_length: usize,
            coords1: *const f64, coords1_length: usize, weights1: *const f64, weights1_length: usize, datum1: u32,
            closed2: u32, degree2: u32, knots2: *const f64, knots2_length: usize, mults2: *const u32, mults2_length: usize,
            coords2: *const f64, coords2_length: usize, weights2: *const f64, weights2_length: usize, datum2: u32,
            pieces1: *mut f64, pieces1_length: usize, pieces2: *mut f64, pieces2_length: usize,
            pairs: *mut u64, pairs_length: usize,
        ) -> u32;
        pub fn lovgurshem_open(
            lo1: f64, hi1: f64, lo2: f64, hi2: f64, gap: f64, splits: u32,
            closed1: u32, degree1: u32, knots1: *const f64, knots1_length: usize, mults1: *const u32, mults1_length: usize,
            coords1: *const f64, coords1_length: usize, weights1: *const f64, weights1_length: usize, datum1: u32,
            closed2: u32, degree2: u32, knots2: *const f64, knots2_length: usize, mults2: *const u32, mults2_length: usize,
            coords2: *const f64, coords2_length: usize, weights2: *const f64, weights2_length: usize, datum2: u32,
            pieces1: *mut f64, pieces1_length: usize, pieces2: *mut f64, pieces2_length: usize,
            nets1: *mut f64, nets1_length: usize, nets2: *mut f64, nets2_length: usize,
            ranges: *mut f64, ranges_length: usize, depths: *mut u8, depths_length: usize,
            raw: *const f64, raw_length: usize, state: *mut u64, state_length: usize,
        ) -> u32;
        pub fn lovgurshem_own_verdict(
            state: *const u64, state_length: usize,
            nets1: *const f64, nets1_length: usize, nets2: *const f64, nets2_length: usize,
            depths: *const u8, depths_length: usize,
        ) -> u32;
        pub fn lovgurshem_step(
            verdict: u32, state: *mut u64, state_length: usize,
            nets1: *mut f64, nets1_length: usize, nets2: *mut f64, nets2_length: usize,
            ranges: *mut f64, ranges_length: usize, depths: *mut u8, depths_length: usize,
            raw: *mut f64, raw_length: usize,
        ) -> u32;
        pub fn lovgurshem_report(
            state: *const u64, state_length: usize,
            nets1: *const f64, nets1_length: usize, nets2: *const f64, nets2_length: usize,
            ranges: *const f64, ranges_length: usize, depths: *const u8, depths_length: usize,
            raw: *mut f64, raw_length: usize, report: *mut f64, report_length: usize,
            marks: *mut u32, marks_length: usize, counts: *mut u64, counts_length: usize,
        ) -> u32;
    }
}

/// Prints the answer to a sheet, a chart's too, in instalments.
fn print_answer(sheet: &[u8]) {
    let (mut cursor, mut out) = ([0u64; 2], vec![0u8; 162446]);
    loop {
        let n = unsafe {
            sys::lovgurshem_next(sheet.as_ptr(), sheet.len(), cursor.as_mut_ptr(), cursor.len(), out.as_mut_ptr(), out.len())
        };
        if n == 0 {
            return;
        }
        print!("{}", String::from_utf8_lossy(&out[..n]));
    }
}

/// A line, as the opening takes it; no weights means that each is 1.
struct Line<'a> {
    closed: bool,
    degree: u32,
    knots: &'a [f64],
    mults: &'a [u32],
    coords: &'a [f64],
    weights: &'a [f64],
    datum: u32,
}

/// A search: its state and its memory, which belong together.
struct Search {
    state: [u64; 23],
    nets1: Vec<f64>,
    nets2: Vec<f64>,
    ranges: Vec<f64>,
    depths: Vec<u8>,
    raw: Vec<f64>,
}

/// A refusal's number.
type Refused = u32;

impl Search {
    /// Opens a search in memory for its P, which the first act tells.
    fn open(a: &Line, b: &Line, range1: (f64, f64), range2: (f64, f64), gap: f64, splits: u32) -> Result<Search, Refused> {
        let (w1, w2) = (4 * (a.degree as usize + 1), 4 * (b.degree as usize + 1));
        // room for twice the pieces between an open line's knots, since a closed line's come again
        let (mut pieces1, mut pieces2) = (vec![0.0; 2 * w1 * a.knots.len()], vec![0.0; 2 * w2 * b.knots.len()]);
        let mut pairs = [0u64];
        let no = unsafe {
            sys::lovgurshem_examine(
                range1.0, range1.1, range2.0, range2.1, gap, splits,
                a.closed as u32, a.degree, a.knots.as_ptr(), a.knots.len(), a.mults.as_ptr(), a.mults.len(),
                a.coords.as_ptr(), a.coords.len(), a.weights.as_ptr(), a.weights.len(), a.datum,
                b.closed as u32, b.degree, b.knots.as_ptr(), b.knots.len(), b.mults.as_ptr(), b.mults.len(),
                b.coords.as_ptr(), b.coords.len(), b.weights.as_ptr(), b.weights.len(), b.datum,
                pieces1.as_mut_ptr(), pieces1.len(), pieces2.as_mut_ptr(), pieces2.len(), pairs.as_mut_ptr(), pairs.len(),
            )
        };
        if no != 0 {
            return Err(no);
        }
        let (pairs, nodes) = (pairs[0] as usize, pairs[0] as usize + 64);
        let mut s = Search {
            state: [0; 23],
            nets1: vec![0.0; w1 * nodes],
            nets2: vec![0.0; w2 * nodes],
            ranges: vec![0.0; 4 * nodes],
            depths: vec![0; 2 * nodes],
            raw: vec![0.0; 10 * pairs * (splits as usize + 1)],
        };
        let no = unsafe {
            sys::lovgurshem_open(
                range1.0, range1.1, range2.0, range2.1, gap, splits,
                a.closed as u32, a.degree, a.knots.as_ptr(), a.knots.len(), a.mults.as_ptr(), a.mults.len(),
                a.coords.as_ptr(), a.coords.len(), a.weights.as_ptr(), a.weights.len(), a.datum,
                b.closed as u32, b.degree, b.knots.as_ptr(), b.knots.len(), b.mults.as_ptr(), b.mults.len(),
                b.coords.as_ptr(), b.coords.len(), b.weights.as_ptr(), b.weights.len(), b.datum,
                pieces1.as_mut_ptr(), pieces1.len(), pieces2.as_mut_ptr(), pieces2.len(),
                s.nets1.as_mut_ptr(), s.nets1.len(), s.nets2.as_mut_ptr(), s.nets2.len(),
                s.ranges.as_mut_ptr(), s.ranges.len(), s.depths.as_mut_ptr(), s.depths.len(),
                s.raw.as_ptr(), s.raw.len(), s.state.as_mut_ptr(), s.state.len(),
            )
        };
        if no == 0 { Ok(s) } else { Err(no) }
    }

    /// 1, 4 and 5 Settled by box, plane and line, 2 Split, 3 Unseparated.
    fn own_verdict(&self) -> Result<u32, Refused> {
        let n = unsafe {
            sys::lovgurshem_own_verdict(
                self.state.as_ptr(), self.state.len(),
                self.nets1.as_ptr(), self.nets1.len(), self.nets2.as_ptr(), self.nets2.len(),
                self.depths.as_ptr(), self.depths.len(),
            )
        };
        if n <= 5 { Ok(n) } else { Err(n) }
    }

    fn step(&mut self, verdict: u32) -> Result<(), Refused> {
        let no = unsafe {
            sys::lovgurshem_step(
                verdict, self.state.as_mut_ptr(), self.state.len(),
                self.nets1.as_mut_ptr(), self.nets1.len(), self.nets2.as_mut_ptr(), self.nets2.len(),
                self.ranges.as_mut_ptr(), self.ranges.len(), self.depths.as_mut_ptr(), self.depths.len(),
                self.raw.as_mut_ptr(), self.raw.len(),
            )
        };
        if no == 0 { Ok(()) } else { Err(no) }
    }

    /// The counts, the merged regions, ten numbers each, and their marks.
    fn report(&mut self) -> Result<([u64; 12], Vec<f64>, Vec<u32>), Refused> {
        let (mut counts, mut list, mut marks) = ([0; 12], vec![0.0; self.raw.len()], vec![0; self.raw.len() / 10]);
        let no = unsafe {
            sys::lovgurshem_report(
                self.state.as_ptr(), self.state.len(),
                self.nets1.as_ptr(), self.nets1.len(), self.nets2.as_ptr(), self.nets2.len(),
                self.ranges.as_ptr(), self.ranges.len(), self.depths.as_ptr(), self.depths.len(),
                self.raw.as_mut_ptr(), self.raw.len(), list.as_mut_ptr(), list.len(),
                marks.as_mut_ptr(), marks.len(), counts.as_mut_ptr(), counts.len(),
            )
        };
        list.truncate(10 * counts[8] as usize);
        marks.truncate(counts[8] as usize);
        if no == 0 { Ok((counts, list, marks)) } else { Err(no) }
    }
}

fn print_report(counts: &[u64; 12], list: &[f64], marks: &[u32]) {
    let word = ["complete", "budget", "unseparated"][counts[0] as usize];
    println!(
        "{word} pairs={} visits={} splits={} settled={} box={} plane={} line={} given={} left={} regions={}",
        counts[1], counts[2], counts[3], counts[4], counts[9], counts[10], counts[11], counts[5], counts[6], counts[8]
    );
    for (region, mark) in list.chunks(10).zip(marks) {
        let bits = |x: &f64| if *x == 0.0 { 0 } else { x.to_bits() };
        let digits: Vec<String> = region.iter().map(|x| format!("{:016X}", bits(x))).collect();
        println!("region {} {mark}", digits.join(" "));
    }
}

/// Each step gets the search's own verdict, until the search ends.
fn search(track: &Line, outfall: &Line) -> Result<(), Refused> {
    let mut s = Search::open(track, outfall, (0.0, 9.0), (0.0, 3.0), 5.0, 64)?;
    loop {
        match s.own_verdict() {
            Ok(verdict) => s.step(verdict)?,
            Err(20) => break,
            Err(no) => return Err(no),
        }
    }
    let (counts, list, marks) = s.report()?;
    print_report(&counts, &list, &marks);
    Ok(())
}

fn main() {
    let track = Line {
        closed: false,
        degree: 3,
        knots: &[0.0, 1.0, 2.0, 3.0, 4.0, 5.0, 6.0, 7.0, 8.0, 9.0],
        mults: &[4, 1, 1, 1, 1, 1, 1, 1, 1, 4],
        coords: &[
            5.0, 12.0, -12.0, 41.5, 18.25, -12.0, 78.0, 21.5, -12.5, 112.75, 14.0, -13.0,
            149.0, 3.5, -13.25, 185.5, -2.25, -13.5, 221.0, 1.75, -13.75, 258.25, 10.5, -14.0,
            296.0, 16.0, -14.0, 333.5, 13.25, -13.5, 369.75, 6.0, -13.0, 403.0, 2.5, -12.75,
        ],
        weights: &[],
        datum: 1,
    };
    let outfall = Line {
        closed: false,
        degree: 2,
        knots: &[0.0, 1.0, 2.0, 3.0],
        mults: &[3, 1, 1, 3],
        coords: &[214.0, 88.0, -9.5, 216.5, 60.0, -11.0, 219.0, 38.0, -12.5, 221.0, 19.0, -13.5, 222.5, 6.5, -14.25],
        weights: &[],
        datum: 1,
    };
    if let Err(no) = search(&track, &outfall) {
        println!("refused {} {}", no % 256, no / 256);
        std::process::exit(1);
    }
    let path = std::env::args().nth(1).expect("usage: main SHEET");
    let sheet = std::fs::read(path).expect("the sheet");
    print_answer(&sheet);
}
