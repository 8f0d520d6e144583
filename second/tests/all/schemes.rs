use second::schemes::{scheme, Family, Scheme, SIX};

fn each<T>(of: impl Fn(&Scheme) -> T) -> Vec<T> {
    SIX.iter().map(of).collect()
}

#[test]
fn the_table_of_fixed_numbers() {
    assert_eq!(each(|s| s.number), [0, 1, 2, 3, 4, 5]);
    assert_eq!(each(|s| s.n), [1024, 1024, 352, 592, 752, 864]);
    assert_eq!(each(|s| s.q), [4294967295, 12289, 2048, 4096, 32768, 32768]);
    assert_eq!(each(|s| s.largest_noise), [51, 16, 3, 4, 5, 6]);
    assert_eq!(each(|s| s.key_bytes), [128, 32, 8, 16, 32, 32]);
    assert_eq!(
        each(|s| s.b),
        [None, None, Some(1), Some(2), Some(4), Some(4)]
    );
    assert_eq!(each(|s| s.width), [32, 14, 11, 12, 15, 15]);
    assert_eq!(
        each(|s| s.name),
        [
            "BCNS",
            "NewHope",
            "Frodo Challenge",
            "Frodo Classical",
            "Frodo Recommended",
            "Frodo Paranoid"
        ]
    );
}

#[test]
fn a_scheme_has_a_number_from_0_to_5() {
    for number in 0..6 {
        assert_eq!(scheme(number).unwrap().number, number);
    }
    for number in [6, 7, 255, 256, 1 << 32, u64::MAX] {
        assert_eq!(scheme(number), None);
    }
}

#[test]
fn counts_of_the_inputs() {
    let squares = [352 * 352, 592 * 592, 752 * 752, 864 * 864];
    let [a2, a3, a4, a5] = squares;
    assert_eq!(each(Scheme::public_count), [1024, 1024, a2, a3, a4, a5]);
    let secrets = [1024, 1024, 2816, 4736, 6016, 6912];
    assert_eq!(each(Scheme::secret_count), secrets);
    assert_eq!(each(Scheme::noise_count), secrets);
    assert_eq!(each(Scheme::packed_count), secrets);
    assert_eq!(each(Scheme::last_noise_count), [1024, 1024, 64, 64, 64, 64]);
    assert_eq!(each(Scheme::seed_bytes), [0, 32, 16, 16, 16, 16]);
    assert_eq!(each(Scheme::coin_bytes), [256, 32, 0, 0, 0, 0]);
}

#[test]
fn lengths_on_the_wire() {
    let [f2, f3, f4, f5] = [352 * 11, 592 * 12, 752 * 15, 864 * 15];
    assert_eq!(each(Scheme::packed_bytes), [4096, 1792, f2, f3, f4, f5]);
    assert_eq!(
        each(Scheme::opening_bytes),
        [4096, 1824, 16 + f2, 16 + f3, 16 + f4, 16 + f5]
    );
    assert_eq!(
        each(Scheme::reply_bytes),
        [4096 + 128, 1792 + 256, f2 + 8, f3 + 8, f4 + 8, f5 + 8]
    );
    assert_eq!(each(Scheme::hint_bytes), [128, 256, 8, 8, 8, 8]);
}

#[test]
fn every_total_fills_whole_bytes() {
    for s in &SIX {
        assert_eq!(s.packed_count() * s.width % 8, 0);
        assert_eq!(s.hint_count() * s.hint_width() % 8, 0);
        assert_eq!(s.key_count() * s.key_width(), 8 * s.key_bytes);
        let coins = match s.family {
            Family::Bcns => s.mixed_count() * s.coin_width(),
            Family::NewHope => s.key_count() * s.coin_width(),
            Family::Frodo => 0,
        };
        assert_eq!(coins, 8 * s.coin_bytes());
    }
}

#[test]
fn every_number_below_q_fits_its_width() {
    for s in &SIX {
        assert!(s.q <= 1 << s.width);
        assert!(s.q > 1 << (s.width - 1));
    }
}

#[test]
fn only_in_frodo_every_packed_number_is_below_q() {
    for s in &SIX {
        assert_eq!(s.q == 1 << s.width, s.family == Family::Frodo);
    }
}
