fn racks(numbers: &[u32]) -> Vec<Rack> {
    numbers.iter().copied().map(Rack::new).collect()
}

/// The lengths of shares, host and spare for so many codewords.
fn lengths(many: usize) -> [usize; 3] {
    [3 * 8, U * 16, 16].map(|length| many * length)
}

#[test]
fn repairing() {
    let (tray, n) = (U as u32, N as u32);
    for (ground, layout, many, lost, helpers, first) in [
        (Refusal::Layout, BAD, 5, n, &[4, 4][..], 9),
        (Refusal::Number, GOOD, 5, n, &[3, 3], 9),
        (Refusal::Number, GOOD, 5, tray, &[4, 4], 9),
        (Refusal::Order, GOOD, 5, tray, &[3, 3], 9),
        (Refusal::Count, GOOD, 5, tray, &[0, 1], 9),
        (Refusal::Host, GOOD, 5, tray, &[0, 1, 2], 9),
        (Refusal::FirstGroup, GOOD, 5, tray, &[0, 2, 3], 9),
        (Refusal::Layout, BAD, 0, n, &[4, 4], 9),
        (Refusal::Number, GOOD, 0, n, &[3, 3], 9),
        (Refusal::Order, GOOD, 0, tray, &[3, 3], 9),
        (Refusal::Count, GOOD, 0, tray, &[0, 1], 9),
        (Refusal::Host, GOOD, 0, tray, &[0, 1, 2], 9),
        (Refusal::FirstGroup, GOOD, 0, tray, &[0, 2, 3], 9),
    ] {
        let (lost, helpers) = (Tray::new(lost), racks(helpers));
        let [shares, host, spare] = lengths(many);
        let [shares, host] = [shares, host].map(|length| scattered::<Symbol>(5, length));
        refused(ground, spare, |spare| {
            repair_batch(layout, many, lost, &helpers, &shares, &host, spare, first, 1)
        });
    }
}

#[test]
fn repairing_by_wrong_lengths() {
    let right = lengths(5);
    let other = |at: usize, length| {
        let mut other = right;
        other[at] = length;
        other
    };
    let few = [
        other(0, right[0] - 1),
        other(1, right[1] + 1),
        other(2, right[2] - 1),
        lengths(4),
        lengths(0),
    ];
    let of_five = few.map(|lengths| (5, lengths));
    let of_none = [right, other(0, 0), other(1, 0)].map(|lengths| (0, lengths));
    let of_huge = HUGE.into_iter().flat_map(|many| [(many, lengths(0)), (many, right)]);
    for (many, [shares, host, spare]) in of_five.into_iter().chain(of_none).chain(of_huge) {
        let [shares, host] = [shares, host].map(|length| scattered::<Symbol>(5, length));
        refused(Refusal::Length, spare, |spare| {
            let (lost, helpers) = (Tray::new(N as u32), racks(&[]));
            repair_batch(GOOD, many, lost, &helpers, &shares, &host, spare, 9, 1)
        });
    }
}

/// In one piece and in pieces of three groups, with numbers of symbols in all.
#[test]
fn repairing_each_part() {
    let (lost, helpers) = (Tray::new(U as u32 + 1), racks(&[0, 2, 3]));
    for many in MANY {
        let [shares, host, spare] = lengths(many).map(|length| scattered::<Symbol>(many, length));
        for step in [8, 3] {
            let mut whole = spare.clone();
            let mut alone: Vec<Vec<Symbol>> = (0..many).map(|q| part(&spare, many, q)).collect();
            for first in (0..8).step_by(step) {
                let budget = step as u64;
                let done = repair_batch(
                    GOOD, many, lost, &helpers, &shares, &host, &mut whole, first, budget,
                );
                let groups = budget.min(8 - first);
                let symbols = |groups| 3 * groups * many as u64;
                let due = Repaired {
                    groups,
                    crossed: symbols(groups),
                    remaining: symbols(8 - first - groups),
                };
                assert_eq!(done, Ok(due));
                for (q, spare) in alone.iter_mut().enumerate() {
                    let [shares, host] = [&shares, &host].map(|buffer| part(buffer, many, q));
                    let done = repair(GOOD, lost, &helpers, &shares, &host, spare, first, budget);
                    assert_eq!(done.map(|done| done.groups), Ok(groups));
                    assert_eq!(part(&whole, many, q), *spare);
                }
            }
        }
    }
}
