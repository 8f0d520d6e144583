//! What is made of the times: the short table, the slopes and the bounds.

use bench::bounds::{self, Bounds, Work, GROW_BLOCKS, LEVELS};
use bench::measure::Pair;
use bench::rows::growth::slope;
use bench::rows::WITH_AES;
use bench::short;
use second::schemes::{BCNS, FRODO_CHALLENGE, FRODO_PARANOID, NEWHOPE};

fn pair(what: &str, peer: &str, own: f64, other: f64) -> Pair {
    Pair { what: what.into(), peer: peer.into(), own, other }
}

/// The quickest other code, in each call by itself, that gives the same bytes.
#[test]
fn the_best_other_code() {
    let pairs = [
        pair("NewHope, Offer", "slow", 8500.0, 90_000.0),
        pair("NewHope, Offer", "plain", 8600.0, 17_200.0),
        pair("NewHope, Reply", "plain", 99_949.0, 50_000.0),
        pair("NewHope, Reply", "slow", 1.0, 50_001.0),
        pair("NewHope, Finish", "plain", 99_950.0, 100_000.0),
        pair("NewHope, Finish", "Botan", 123_456.0, 61_728.0),
        pair("NewHope, Finish", WITH_AES, 1.0, 1.0),
        pair("NewHope, Bench", "quick", 1.0, 1.0),
        pair("BCNS, Offer", "without its other calls", 1.0, 1.0),
    ];
    assert_eq!(short::best(&pairs, "NewHope", "Finish").expect("a row").peer, "Botan");
    assert!(short::best(&pairs, "BCNS", "Reply").is_none());
    let line = ["NewHope", "8.6", "99.9", "123", "0.50, 2.00, 2.00", "plain; in Finish Botan"];
    assert_eq!(short::lines(&pairs), [line]);
    assert_eq!(short::COLUMNS.len(), line.len());
}

#[test]
fn slopes() {
    let near = |x: f64, y: f64| (x - y).abs() < 1e-9;
    assert!(near(slope((352.0, 7.0), (704.0, 28.0)), 2.0));
    assert!(near(slope((32.0, 10.0), (64.0, 30.0)), 3f64.log2()));
    assert!(near(slope((8.0, 80.0), (64.0, 10.0)), -1.0));
    assert!(near(slope((8.0, 80.0), (64.0, 80.0)), 0.0));
}

/// By hand, from the numbers of 01.
#[test]
fn works() {
    let work = |bytes, products, permutations| Work { bytes, products, permutations };
    assert_eq!(bounds::windows(1024, 0), 2_097_152);
    assert_eq!(bounds::windows(1024, 1), 1_572_864);
    assert_eq!(bounds::windows(1024, 2), 1_179_648);
    let product = bounds::windows(1024, LEVELS);
    assert_eq!(bounds::offer(&BCNS), work(3 * 4096 + 4096, product, 0));
    assert_eq!(bounds::reply(&BCNS), work(4096 + 4 * 4096 + 256 + 4224 + 128 + 32, 2 * product, 1));
    assert_eq!(bounds::finish(&BCNS), work(4224 + 4096 + 128 + 32, product, 1));
    assert_eq!(bounds::offer(&NEWHOPE), work(3 * 4096 + 32 + 1824, 3 * (2 * 5120 + 1024), 0));
    assert_eq!(bounds::reply(&NEWHOPE), work(1824 + 4 * 4096 + 32 + 2048 + 32 + 32, 3 * (3 * 5120 + 2 * 1024), 1));
    assert_eq!(bounds::finish(&NEWHOPE), work(2048 + 4096 + 32 + 32, 3 * (2 * 5120 + 1024), 1));
    assert_eq!(bounds::offer(&FRODO_CHALLENGE), work(495_616 + 2 * 11_264 + 16 + 3888, 991_232, 0));
    assert_eq!(bounds::reply(&FRODO_CHALLENGE), work(3888 + 495_616 + 2 * 11_264 + 256 + 3880 + 8 + 32, 991_232 + 22_528, 1));
    assert_eq!(bounds::finish(&FRODO_CHALLENGE), work(3880 + 11_264 + 8 + 32, 22_528, 1));
    assert_eq!(bounds::offer(&FRODO_PARANOID).products, 5_971_968);
    assert_eq!(bounds::noise(&BCNS), work(25_600 + 1224 + 4096, 0, 0));
    assert_eq!(bounds::noise(&NEWHOPE), work(4096 + 4096, 0, 0));
    assert_eq!(bounds::grow(), work(32 + 4096, 0, GROW_BLOCKS));
    assert_eq!(bounds::bench(&BCNS), work(6 * 4096 + 256, 4 * product, 2));
    assert_eq!(bounds::bench(&FRODO_CHALLENGE), work(495_616 + 4 * 11_264 + 256 + 16, 2 * 991_232 + 2 * 22_528, 2));
    assert_eq!(bounds::by_rows(&FRODO_CHALLENGE, bounds::offer(&FRODO_CHALLENGE)).bytes, bounds::offer(&FRODO_CHALLENGE).bytes + 22_796);
    assert_eq!(bounds::expand(), work(2048 + 4096, 0, 0));
    assert_eq!(bounds::hash(168, 65536, 32), work(65568, 0, 391));
    assert_eq!(bounds::hash(168, 32, 65536), work(65568, 0, 391));
    assert_eq!(bounds::hash(136, 65536, 32), work(65568, 0, 482));
    assert_eq!(bounds::hash(136, 32, 32), work(64, 0, 1));
    assert_eq!(bounds::product(32), work(9 * 128, 4096, 0));
    assert_eq!(bounds::product(1024), work(9 * 4096, 4096 * 243, 0));
}

#[test]
fn the_largest_bound() {
    let work = Work { bytes: 100, products: 1000, permutations: 2 };
    assert_eq!(Bounds::of(&work, 30.0, 0.02, 7.0).largest(), (30.0, "bytes"));
    assert_eq!(Bounds::of(&work, 30.0, 0.5, 7.0).largest(), (500.0, "products"));
    assert_eq!(Bounds::of(&work, 30.0, 0.02, 350.0).largest(), (700.0, "permutations"));
}
