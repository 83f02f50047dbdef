//! A path in Rust: a safe wrapper over the C library, and what `./path_server path MAP SX SY GX GY` prints.
//!
//! ```text
//! rustc -O -L release/pathdb examples/path.rs -o path
//! ./path maps/tutorial.map 2 2 37 17
//! ```
use std::process::ExitCode;

mod pathdb {
    //! Images and paths, safe to call: an [`Image`] has passed the check, and borrows its words, so they stay as they
    //! are.
    use std::fmt;
    use std::os::raw::c_char;

    /// A cell by its column and row, from 0.
    #[repr(C)]
    #[derive(Clone, Copy, Debug, PartialEq, Eq)]
    pub struct Cell {
        pub x: u16,
        pub y: u16,
    }

    /// What a path costs: `straight + diagonal * sqrt(2)`.
    #[repr(C)]
    #[derive(Clone, Copy, Debug, Default, PartialEq, Eq)]
    pub struct Cost {
        pub straight: u32,
        pub diagonal: u32,
    }

    #[repr(C)]
    #[derive(Default)]
    struct Baked {
        words: u32,
        line: u32,
        x: u32,
        y: u32,
        byte: u32,
        expected: u32,
        found: u32,
    }

    #[link(name = "pathdb", kind = "static")]
    extern "C" {
        fn pathdb_check(words: *const u32, count: usize, part: *mut u32) -> u32;
        fn pathdb_path_cost(words: *const u32, count: usize, start: Cell, goal: Cell, cost: *mut Cost) -> u32;
        fn pathdb_path(
            words: *const u32,
            count: usize,
            start: Cell,
            goal: Cell,
            moves: *mut u8,
            room: usize,
            length: *mut u32,
        ) -> u32;
        fn pathdb_status_text(status: u32, text: *mut c_char, room: usize) -> usize;
        fn pathdb_bake_text(
            text: *const u8,
            length: usize,
            order: u32,
            words: *mut u32,
            room: usize,
            baked: *mut Baked,
        ) -> u32;
    }

    const DONE: u32 = 0;
    const UNREACHABLE: u32 = 2;
    const TOO_SMALL: u32 = 7;

    /// A status that is no answer.
    #[derive(Clone, Copy, Debug, PartialEq, Eq)]
    pub struct Fault(u32);

    impl fmt::Display for Fault {
        fn fmt(&self, f: &mut fmt::Formatter<'_>) -> fmt::Result {
            let mut room = [0u8; 64];
            // SAFETY: the room is as long as is said, and nobody else has it.
            let length = unsafe { pathdb_status_text(self.0, room.as_mut_ptr().cast(), room.len()) };
            f.write_str(&String::from_utf8_lossy(&room[..length]))
        }
    }

    /// The order of the cells in a database.
    #[derive(Clone, Copy)]
    pub enum Order {
        Rows = 0,
        #[allow(dead_code)]
        Dfs = 1,
    }

    /// Bakes the image of a map that is given as a text.
    pub fn bake(map: &[u8], order: Order) -> Result<Vec<u32>, Fault> {
        let mut words = vec![0; 1 << 12];
        loop {
            let mut baked = Baked::default();
            // SAFETY: both slices are as long as is said, and the room is borrowed by nobody else. A slice of Rust is
            // never at null.
            let status = unsafe {
                pathdb_bake_text(map.as_ptr(), map.len(), order as u32, words.as_mut_ptr(), words.len(), &mut baked)
            };
            match status {
                DONE => {
                    words.truncate(baked.words as usize);
                    return Ok(words);
                }
                TOO_SMALL => words.resize(baked.words as usize, 0),
                other => return Err(Fault(other)),
            }
        }
    }

    /// Words that passed the check.
    #[derive(Clone, Copy)]
    pub struct Image<'a> {
        words: &'a [u32],
    }

    impl<'a> Image<'a> {
        /// The image in these words, if they pass the check.
        pub fn over(words: &'a [u32]) -> Result<Image<'a>, Fault> {
            let mut part = 0;
            // SAFETY: the slice is as long as is said.
            match unsafe { pathdb_check(words.as_ptr(), words.len(), &mut part) } {
                DONE => Ok(Image { words }),
                other => Err(Fault(other)),
            }
        }

        /// What a shortest path costs; `None` where no path exists.
        pub fn cost(self, start: Cell, goal: Cell) -> Result<Option<Cost>, Fault> {
            let mut cost = Cost::default();
            // SAFETY: the words passed the check, and are borrowed since.
            match unsafe { pathdb_path_cost(self.words.as_ptr(), self.words.len(), start, goal, &mut cost) } {
                DONE => Ok(Some(cost)),
                UNREACHABLE => Ok(None),
                other => Err(Fault(other)),
            }
        }

        /// The moves of a shortest path in a room that is used again; `None` where no path exists.
        pub fn path<'r>(self, start: Cell, goal: Cell, room: &'r mut Vec<u8>) -> Result<Option<&'r [u8]>, Fault> {
            loop {
                let mut length = 0;
                let (words, count) = (self.words.as_ptr(), self.words.len());
                // SAFETY: the words passed the check, and are borrowed since; the room is as long as is said.
                let status = unsafe {
                    pathdb_path(words, count, start, goal, room.as_mut_ptr(), room.len(), &mut length)
                };
                match status {
                    DONE => return Ok(Some(&room[..length as usize])),
                    TOO_SMALL => room.resize(length as usize, 0),
                    UNREACHABLE => return Ok(None),
                    other => return Err(Fault(other)),
                }
            }
        }
    }
}

const MOVES: [&str; 8] = ["N", "NE", "E", "SE", "S", "SW", "W", "NW"];

/// The three lines of a path.
fn lines(map: &[u8], start: pathdb::Cell, goal: pathdb::Cell) -> Result<String, pathdb::Fault> {
    let words = pathdb::bake(map, pathdb::Order::Rows)?;
    let image = pathdb::Image::over(&words)?;
    let Some(cost) = image.cost(start, goal)? else {
        return Ok("unreachable".to_string());
    };
    let mut room = Vec::new();
    let moves = image.path(start, goal, &mut room)?.unwrap_or_default();
    let micro = ((f64::from(cost.straight) + 2f64.sqrt() * f64::from(cost.diagonal)) * 1e6) as u64;
    let (whole, rest) = (micro / 1_000_000, micro % 1_000_000);
    let mut text = format!("cost {} {}\nlength {whole}.{rest:06}\nmoves", cost.straight, cost.diagonal);
    for by in moves {
        text.push(' ');
        text.push_str(MOVES[usize::from(*by)]);
    }
    Ok(text)
}

fn main() -> ExitCode {
    let words: Vec<String> = std::env::args().skip(1).collect();
    let numbers: Vec<u16> = words.iter().skip(1).filter_map(|word| word.parse().ok()).collect();
    let ([name, ..], [sx, sy, gx, gy]) = (words.as_slice(), numbers.as_slice()) else {
        eprintln!("usage: path MAP SX SY GX GY");
        return ExitCode::FAILURE;
    };
    let map = match std::fs::read(name) {
        Ok(map) => map,
        Err(error) => {
            eprintln!("path: {name}: {error}");
            return ExitCode::FAILURE;
        }
    };
    match lines(&map, pathdb::Cell { x: *sx, y: *sy }, pathdb::Cell { x: *gx, y: *gy }) {
        Ok(text) => {
            println!("{text}");
            ExitCode::SUCCESS
        }
        Err(fault) => {
            eprintln!("path: {fault}");
            ExitCode::FAILURE
        }
    }
}
