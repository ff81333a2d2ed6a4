#[test]
fn sharing() {
    for (ground, layout, many, host, helper, rack, length) in [
        (Refusal::Layout, BAD, 5, 4, 4, 5 * U * 16 - 1, 5 * 8 - 1),
        (Refusal::Length, GOOD, 5, 4, 4, 5 * U * 16 - 1, 5 * 8),
        (Refusal::Length, GOOD, 5, 4, 4, 5 * U * 16, 5 * 8 - 1),
        (Refusal::Length, GOOD, 5, 4, 4, 4 * U * 16, 4 * 8),
        (Refusal::Number, GOOD, 5, 4, 4, 5 * U * 16, 5 * 8),
        (Refusal::Number, GOOD, 5, 0, 4, 5 * U * 16, 5 * 8),
        (Refusal::Host, GOOD, 5, 3, 3, 5 * U * 16, 5 * 8),
        (Refusal::Layout, BAD, 0, 4, 4, 0, 0),
        (Refusal::Length, GOOD, 0, 4, 4, U * 16, 8),
        (Refusal::Number, GOOD, 0, 4, 4, 0, 0),
        (Refusal::Host, GOOD, 0, 3, 3, 0, 0),
    ] {
        let (host, helper) = (Rack::new(host), Rack::new(helper));
        let rack = scattered::<Symbol>(2, rack);
        refused(ground, length, |out| share_batch(layout, many, host, helper, &rack, out));
    }
    let (host, helper) = (Rack::new(0), Rack::new(2));
    for many in HUGE {
        let rack = scattered::<Symbol>(2, U * 16);
        for (rack, length) in [(&rack[..0], 0), (&rack[..], 8)] {
            refused(Refusal::Length, length, |out| {
                share_batch(GOOD, many, host, helper, rack, out)
            });
        }
    }
}

#[test]
fn sharing_each_part() {
    for many in MANY {
        for host in [0, 1, 3] {
            let (host, helper) = (Rack::new(host), Rack::new(2));
            let rack = scattered::<Symbol>(many, many * U * 16);
            let mut sent = scattered(9, many * 8);
            let shared = share_batch(GOOD, many, host, helper, &rack, &mut sent);
            assert_eq!(shared, Ok(()));
            for q in 0..many {
                let mut alone = vec![0; 8];
                share(GOOD, host, helper, &part(&rack, many, q), &mut alone).expect("it is shared");
                assert_eq!(part(&sent, many, q), alone);
            }
        }
    }
}
