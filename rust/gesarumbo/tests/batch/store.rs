#[test]
fn storing() {
    for (ground, layout, many, data, length) in [
        (Refusal::Layout, BAD, 5, 5 * K * 16 - 1, 5 * N * 16 - 1),
        (Refusal::Length, GOOD, 5, 5 * K * 16 - 1, 5 * N * 16),
        (Refusal::Length, GOOD, 5, 5 * K * 16, 5 * N * 16 + 1),
        (Refusal::Length, GOOD, 5, 4 * K * 16, 4 * N * 16),
        (Refusal::Length, GOOD, 0, 0, N * 16),
        (Refusal::Length, GOOD, 0, K * 16, 0),
        (Refusal::Layout, BAD, 0, 0, 0),
    ] {
        let data = scattered::<Symbol>(1, data);
        refused(ground, length, |out| store_batch(layout, many, &data, out));
    }
    for many in HUGE {
        let data = scattered::<Symbol>(1, K * 16);
        for (data, length) in [(&data[..0], 0), (&data[..], N * 16)] {
            refused(Refusal::Length, length, |out| {
                store_batch(GOOD, many, data, out)
            });
        }
    }
}

#[test]
fn storing_each_part() {
    for many in MANY {
        let data = scattered::<Symbol>(many, many * K * 16);
        let mut codewords = scattered(9, many * N * 16);
        assert_eq!(store_batch(GOOD, many, &data, &mut codewords), Ok(()));
        for q in 0..many {
            let mut codeword = vec![0; N * 16];
            store(GOOD, &part(&data, many, q), &mut codeword).expect("data are stored");
            assert_eq!(part(&codewords, many, q), codeword);
        }
    }
}
