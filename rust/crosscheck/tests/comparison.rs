//! The figures of docs/COMPARISON.md, worked out again by the formulas that stand there.

use gesarumbo::{field257, numbers, Layout, Numbers};
use std::fs;
use std::path::Path;

const CABINETS: [Layout; 4] = [
    Layout::new(4, 3, 8, 3),
    Layout::new(5, 4, 15, 4),
    Layout::new(7, 5, 24, 6),
    Layout::new(10, 3, 24, 9),
];

/// What the library says of a layout, and the field that admits it.
fn admitted(layout: Layout) -> (Numbers, u32) {
    match numbers(layout) {
        Ok(numbers) => (numbers, 256),
        Err(_) => (field257::numbers(layout).unwrap(), 257),
    }
}

/// s to a power.
fn to_base(c: &Numbers, exponent: usize) -> usize {
    c.digits.pow(exponent as u32)
}

/// s for a code that counts a rack begun as a whole one.
fn base_of_begun(c: &Numbers) -> usize {
    c.helpers - c.dimension.div_ceil(c.size) + 1
}

/// A base times the least primes above u that are 1 modulo it, one for each rack.
fn times_primes(c: &Numbers, base: usize) -> usize {
    let fits = |&p: &usize| is_prime(p) && p % base == 1 % base;
    let primes = (c.size + 1..).filter(fits).take(c.racks);
    base * primes.product::<usize>()
}

/// Ω of source 004, (42).
fn omega(c: &Numbers, base: usize) -> usize {
    let u = c.size;
    let term = |t: usize, d: usize| {
        let choices = choose(base - 1, t - 1) * choose(u * t, d) * choose(d - 1, t - 1);
        choices * (d - t + 1) * (d - 1)
    };
    (1..=base)
        .map(|t| (t..=u * t).map(|d| term(t, d)).sum::<usize>())
        .sum()
}

/// The number of symbols that source 004's theorems ask for, with s or s + 1 racks together.
fn coupled_field(c: &Numbers, together: usize) -> usize {
    let constraints = (together - 1) << (together - 2);
    c.trays * c.digits + c.size * (omega(c, together) + constraints)
}

/// The choices of k trays that source 002's Theorem 2 counts.
fn choices(c: &Numbers) -> usize {
    let others = c.trays - c.racks;
    (1..=c.dimension.min(c.racks))
        .map(|i| choose(others, c.dimension - i) * choose(c.racks, i))
        .sum()
}

/// Whether source 000's array code can be had: u and s have no common factor.
fn has_array_code(c: &Numbers) -> bool {
    !(2..=c.digits).any(|f| c.digits.is_multiple_of(f) && c.size.is_multiple_of(f))
}

/// Whether product-matrix codes can be had.
fn has_product_matrix(c: &Numbers) -> bool {
    2 * c.whole <= c.helpers + 2
}

/// The trays that plain Reed-Solomon reads in other racks for a lost one.
fn other_trays(c: &Numbers) -> usize {
    c.dimension + 1 - c.size
}

fn is_prime(number: usize) -> bool {
    number > 1 && (2..number).all(|factor| !number.is_multiple_of(factor))
}

fn is_prime_power(number: usize) -> bool {
    let least = (2..=number).find(|&factor| number.is_multiple_of(factor));
    least.is_some_and(|prime| (1..20).any(|e| prime.pow(e) == number))
}

fn choose(from: usize, count: usize) -> usize {
    match count > from {
        true => 0,
        false => (0..count).fold(1, |product, at| product * (from - at) / (at + 1)),
    }
}

/// A number with a comma before every three digits.
fn commas(number: usize) -> String {
    let digits = number.to_string();
    let places = digits.len();
    let digit = |(at, digit): (usize, char)| match at > 0 && (places - at).is_multiple_of(3) {
        true => format!(",{digit}"),
        false => digit.to_string(),
    };
    digits.chars().enumerate().map(digit).collect()
}

/// A number, or a dash where there is no such code.
fn some(had: bool, number: impl FnOnce() -> usize) -> String {
    match had {
        true => commas(number()),
        false => "–".to_string(),
    }
}

/// A quotient that has at most one digit after the point.
fn quotient(number: usize, by: usize) -> String {
    assert!((10 * number).is_multiple_of(by));
    format!("{}", number as f64 / by as f64)
}

fn page() -> String {
    let root = Path::new(env!("CARGO_MANIFEST_DIR")).join("../..");
    fs::read_to_string(root.join("docs/COMPARISON.md")).unwrap()
}

/// The cells of the rows of a section of the page.
fn rows(page: &str, section: &str) -> Vec<Vec<String>> {
    let heading = format!("## {section}");
    let lines = page.lines().skip_while(|line| !line.starts_with(&heading));
    let own = lines.skip(1).take_while(|line| !line.starts_with("## "));
    own.filter(|line| line.starts_with("| "))
        .map(|line| {
            line.trim_matches('|')
                .split('|')
                .map(|cell| cell.trim().to_string())
                .collect()
        })
        .collect()
}

/// Requires that a row of a section ends with these figures of the cabinets.
fn require(section: &str, name: &str, figure: impl Fn(&Numbers) -> String) {
    let rows = rows(&page(), section);
    let row = rows.iter().find(|row| row[0] == name);
    let row = row.unwrap_or_else(|| panic!("{section}: no row {name}"));
    let figures = CABINETS.map(|layout| figure(&admitted(layout).0));
    assert_eq!(
        row[row.len() - figures.len()..],
        figures,
        "{section}: {name}"
    );
}

#[test]
fn the_cabinets() {
    let rows = rows(&page(), "The cabinets");
    for (layout, row) in CABINETS.into_iter().zip(&rows[2..]) {
        let (c, field) = admitted(layout);
        let share = 100.0 * c.dimension as f64 / c.trays as f64;
        let figures = [
            layout.to_string(),
            c.trays.to_string(),
            c.dimension.to_string(),
            format!("{share:.1} %"),
            c.checks.to_string(),
            c.digits.to_string(),
            c.lost_at_once().to_string(),
            field.to_string(),
            commas(c.layers),
            commas(c.traffic),
        ];
        assert_eq!(row[..], figures);
    }
    assert_eq!(rows.len(), 2 + CABINETS.len());
}

/// The layouts with E = 1 that the page names, and what is said of (10, 3, 24, 9) in whole trays.
#[test]
fn figures_in_sentences() {
    let of_one = numbers(Layout::with_errors(7, 5, 24, 6, 1)).unwrap();
    assert_eq!((of_one.digits, of_one.layers, of_one.traffic), (1, 1, 6));
    let of_two = numbers(Layout::with_errors(10, 3, 18, 9, 1)).unwrap();
    assert_eq!(
        (of_two.digits, of_two.layers, of_two.traffic),
        (2, 1024, 4608)
    );
    let c = numbers(CABINETS[3]).unwrap();
    let trays = |count: usize| commas(count * c.layers);
    let [read, crossing, summed] = [c.dimension, other_trays(&c), c.whole].map(trays);
    let page = page().replace('\n', " ");
    for words in [
        format!("reads 24·1,024 = {read} symbols for a tray of 1,024, of which {crossing} cross"),
        format!("{summed} cross where the helper racks add up first"),
        format!("and {} = 9·512 here", commas(c.traffic)),
    ] {
        assert!(page.contains(&words), "{words}");
    }
}

#[test]
fn symbols_a_tray() {
    let require = |name, figure: fn(&Numbers) -> String| require("Symbols a tray", name, figure);
    require("plain Reed-Solomon", |_| commas(1));
    require("here, the diagonal code of Chen and Barg", |c| {
        assert_eq!(c.layers, to_base(c, c.racks));
        commas(c.layers)
    });
    require("000, array code", |c| {
        some(has_array_code(c), || to_base(c, c.racks))
    });
    require("000, Reed-Solomon", |c| commas(times_primes(c, c.digits)));
    require("Zhou and Zhang", |c| {
        commas(to_base(c, c.racks.div_ceil(c.size - c.part)))
    });
    for name in ["004, first construction", "002 over the codes of its [6]"] {
        require(name, |c| commas(to_base(c, c.racks.div_ceil(c.digits))));
    }
    require("004, second construction", |c| {
        commas(to_base(c, c.racks.div_ceil(c.digits + 1)))
    });
    require("002 over product-matrix codes", |c| {
        some(has_product_matrix(c), || c.digits)
    });
    require("003 over Chen and Barg's Reed-Solomon", |c| {
        commas(times_primes(c, base_of_begun(c)))
    });
}

#[test]
fn traffic_and_reading() {
    let require = |name, figure: fn(&Numbers) -> String| require("Traffic", name, figure);
    for name in ["plain Reed-Solomon, whole trays", "plain Reed-Solomon"] {
        require(name, |c| commas(other_trays(c)));
    }
    require("plain Reed-Solomon, each rack sends one sum", |c| {
        assert!(c.whole * c.size + c.size > c.dimension);
        commas(c.whole)
    });
    let least = "here, 000, 002, 004, Chen and Barg, Zhou and Zhang";
    require(least, |c| quotient(c.helpers, c.digits));
    require("003 over Chen and Barg's Reed-Solomon", |c| {
        quotient(c.helpers, base_of_begun(c))
    });
    for name in ["here", "002"] {
        require(name, |c| commas(c.helpers * c.size));
    }
    let low = "000, array code; 004, first construction";
    require(low, |c| match has_array_code(c) {
        true => quotient(c.helpers * c.size, c.digits),
        false => format!("– / {}", quotient(c.helpers * c.size, c.digits)),
    });
}

#[test]
fn the_field() {
    let require = |name, figure: fn(&Numbers) -> String| require("Field", name, figure);
    require("000, array code", |c| {
        let fits = |&q: &usize| is_prime_power(q) && (q - 1).is_multiple_of(c.size);
        let least = (c.trays + 1..).find(fits);
        some(has_array_code(c), || least.unwrap())
    });
    require("004, first construction", |c| {
        commas(coupled_field(c, c.digits))
    });
    require("004, second construction", |c| {
        commas(coupled_field(c, c.digits + 1))
    });
    require("002 over product-matrix codes", |c| {
        some(has_product_matrix(c), || {
            c.dimension * c.digits * choices(c)
        })
    });
}
