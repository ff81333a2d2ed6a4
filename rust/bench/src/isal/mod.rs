//! Intel's ISA-L as an outside peer, where it is installed: storing by plain Reed-Solomon.
//!
//! It stores another code: as many trays of as many bytes, of which any k give back the data, but
//! the repair of a lost tray reads k whole trays. Its tables are made beforehand and its data stay
//! where they are, so that what is timed is the multiplying alone.

mod loaded;

use crate::filled::Filled;
use crate::instructions;
use crate::ordinary::bytes::LogExp;
use crate::ordinary::Multiply;
use crate::symbol::Symbol;
use crate::table;
use crate::timing;
use crate::version::{Library, Version};
use gesarumbo::{Layout, Numbers};
use loaded::{Encode, Loaded};
use std::ffi::c_int;
use std::time::Instant;

/// The library, and ISA-L's forms: the portable one in C, and the one for the processor it finds.
pub const NAMES: [&str; 3] = ["library", "isal-portable", "isal-dispatched"];
const STORE: &str = "store";
const MISSING: &str = "ISA-L is not installed";
/// The bytes of a symbol's table.
const TABLE: usize = 32;
/// A layout has at most so many trays.
const MOST_TRAYS: usize = 60;

/// Plain Reed-Solomon of a layout's n and k.
struct Code {
    dimension: usize,
    checks: usize,
    /// The rows of the trays that are not data.
    rows: Vec<u8>,
    tables: Vec<u8>,
}

impl Code {
    fn new(isal: &Loaded, numbers: &Numbers) -> Code {
        let (dimension, checks) = (numbers.dimension, numbers.checks);
        let mut matrix = vec![0; numbers.trays * dimension];
        let mut tables = vec![0; TABLE * checks * dimension];
        let [n, k, r] = [numbers.trays, dimension, checks].map(|number| number as c_int);
        // SAFETY: the matrix has the n·k bytes that erasure_code.h asks for.
        unsafe { (isal.make_matrix)(matrix.as_mut_ptr(), n, k) };
        let rows = matrix.split_off(dimension * dimension);
        // SAFETY: the rows have the r·k bytes, and the tables the 32·r·k, that it asks for.
        unsafe { (isal.make_tables)(k, r, rows.as_ptr(), tables.as_mut_ptr()) };
        Code {
            dimension,
            checks,
            rows,
            tables,
        }
    }

    /// Writes the trays that are not data.
    fn store(&self, encode: Encode, data: &[u8], others: &mut [u8]) {
        let layers = data.len() / self.dimension;
        assert_eq!(data.len(), self.dimension * layers);
        assert_eq!(others.len(), self.checks * layers);
        assert!(self.dimension.max(self.checks) <= MOST_TRAYS);
        let mut from = [std::ptr::null(); MOST_TRAYS];
        let mut to = [std::ptr::null_mut(); MOST_TRAYS];
        for (place, tray) in from.iter_mut().zip(data.chunks(layers)) {
            *place = tray.as_ptr();
        }
        for (place, tray) in to.iter_mut().zip(others.chunks_mut(layers)) {
            *place = tray.as_mut_ptr();
        }
        let [length, k, r] = [layers, self.dimension, self.checks].map(|number| number as c_int);
        let tables = self.tables.as_ptr();
        // SAFETY: k trays to read and r to write, each of that length, and the tables of r rows.
        unsafe { encode(length, k, r, tables, from.as_ptr(), to.as_ptr()) };
    }

    /// The same, symbol by symbol.
    fn stored_plainly(&self, data: &[u8]) -> Vec<u8> {
        let layers = data.len() / self.dimension;
        let field = LogExp::new();
        let mut others = vec![0; self.checks * layers];
        let rows = self.rows.chunks(self.dimension);
        for (row, tray) in rows.zip(others.chunks_mut(layers)) {
            for (&factor, symbols) in row.iter().zip(data.chunks(layers)) {
                let pairs = tray.iter_mut().zip(symbols);
                pairs.for_each(|(sum, &symbol)| field.add(sum, factor, symbol));
            }
        }
        others
    }
}

/// A cabinet's data, and how ISA-L stores them.
struct Peer {
    filled: Filled<u8>,
    code: Code,
    forms: [Encode; 2],
    others: Vec<u8>,
}

impl Peer {
    /// Both forms are seen to write what they should.
    fn new(isal: &Loaded, layout: Layout) -> Peer {
        let filled = Filled::new(layout);
        let numbers = &filled.numbers;
        let mut peer = Peer {
            code: Code::new(isal, numbers),
            forms: [isal.encode_portable, isal.encode],
            others: vec![0; numbers.codeword() - numbers.data()],
            filled,
        };
        for form in 0..peer.forms.len() {
            peer.others.fill(0);
            peer.store(form);
            assert!(peer.others == peer.code.stored_plainly(&peer.filled.data));
        }
        peer
    }

    /// In a function of its own, so that a profiler can count it by its name.
    #[inline(never)]
    fn counted(&mut self, form: usize) {
        self.store(form);
    }

    fn store(&mut self, form: usize) {
        let data = &self.filled.data;
        self.code.store(self.forms[form], data, &mut self.others);
    }

    fn times(&mut self, rounds: usize) -> Vec<timing::Times> {
        let mut codeword = vec![0; self.filled.codeword.len()];
        timing::in_turns(NAMES.len(), rounds, |place, repeats| {
            let start = Instant::now();
            for _ in 0..repeats {
                match std::hint::black_box(place) {
                    0 => Library.store(&self.filled.numbers, &self.filled.data, &mut codeword),
                    form => self.store(form - 1),
                }
            }
            start.elapsed()
        })
    }
}

/// Times storing by the library and by both forms of ISA-L.
pub fn print_times(layouts: &[Layout], rounds: usize) -> Result<(), String> {
    let isal = Loaded::new().ok_or(MISSING)?;
    println!();
    table::heading(table::LAYOUT, &NAMES, ", µs");
    for &layout in layouts {
        let times = Peer::new(&isal, layout).times(rounds);
        table::row(layout, STORE, &times);
    }
    Ok(())
}

/// Counts the instructions of the same.
pub fn print_instructions(layouts: &[Layout]) -> Result<(), String> {
    Loaded::new().ok_or(MISSING)?;
    println!();
    table::heading(table::LAYOUT, &NAMES, "");
    for &layout in layouts {
        let count = |name| instructions::of(u8::COUNT, layout, STORE, name);
        let counts: Vec<u64> = NAMES.into_iter().map(count).collect::<Result<_, _>>()?;
        table::counts(layout, STORE, &counts);
    }
    Ok(())
}

/// Stores once by a form of ISA-L.
pub fn count(layout: Layout, name: &str) -> Result<(), String> {
    let isal = Loaded::new().ok_or(MISSING)?;
    let form = NAMES[1..].iter().position(|form| *form == name);
    Peer::new(&isal, layout).counted(form.ok_or(MISSING)?);
    Ok(())
}
