use crate::generator::Generator;
use second::calls::{expand, grow, shake128};
use second::refusal::refusal;
use second::schemes::NEWHOPE;

const RULES: [u32; 2] = [14, 16];

#[test]
fn expand_over_24_blocks() {
    for round in 0..4 {
        let seed = Generator::new(80 + round).bytes(32);
        let mut stream = [0; 24 * 168];
        assert_eq!(shake128(&seed, &mut stream), Ok(4032));
        for rule in RULES {
            let (mut grown, mut expanded) = ([7; 1030], [7; 1030]);
            assert_eq!(grow(rule, &seed, &mut grown), Ok(1024));
            assert_eq!(expand(rule, &stream, &mut expanded), Ok(1024));
            assert_eq!(grown, expanded);
            assert_eq!(grown[1024..], [0; 6]);
            assert!(grown.iter().all(|&number| i128::from(number) < NEWHOPE.q));
        }
    }
}

// No seed is known that runs out of 24 blocks, so that 7 is run by Expand alone.

#[test]
fn each_rule_and_each_seed_has_its_own_numbers() {
    let mut all = vec![];
    for rule in RULES {
        for last in 0..3 {
            let mut seed = [0; 32];
            seed[31] = last;
            let mut grown = vec![7; 1024];
            assert_eq!(grow(rule, &seed, &mut grown), Ok(1024));
            assert!(!all.contains(&grown));
            all.push(grown);
        }
    }
}

#[test]
fn refusals_in_their_order() {
    for (rule, length, room, number) in [
        (15, 33, 0, 12),
        (0, 32, 1024, 12),
        (4294967295, 32, 1030, 12),
        (14, 33, 0, 2),
        (16, 31, 1024, 2),
        (14, 0, 1024, 2),
        (16, 64, 1030, 2),
        (14, 32, 0, 3),
        (16, 32, 1023, 3),
    ] {
        let mut output = vec![7; room];
        let answer = grow(rule, &vec![1; length], &mut output);
        assert_eq!(answer, Err(refusal(number, 0)));
        assert_eq!(output, vec![0; room]);
    }
}
