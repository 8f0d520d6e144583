//! FIPS 202: the standard's own examples, answers that other implementations
//! give, and the refusals of the two calls.

use crate::generator::Generator;
use crate::standards::hex;
use second::calls;
use second::hash::{sha3_256, shake128};
use second::refusal::refusal;

// The examples that go with the standard: the empty message and 1,600 bits of
// 0xA3, of SHAKE-128 to 4,096 bits.

#[test]
fn examples_of_sha3_256() {
    let empty = "a7ffc6f8bf1ed76651c14756a061d662f580ff4de43b49fa82d80a4b80f8434a";
    assert_eq!(sha3_256(b""), hex(empty));
    let long = "79f38adec5c20307a98ef76e8324afbfd46cfd81b22e3973c65fa1bd9de31787";
    assert_eq!(sha3_256(&[0xA3; 200]), hex(long));
}

#[test]
fn examples_of_shake128() {
    let empty = "7f9c2ba4e88f827d616045507605853ed73b8093f6efbc88eb1a6eacfa66ef26";
    assert_eq!(shake128(b"", 32), hex(empty));
    let last = "43e41b45a653f2a5c4492c1add544512dda2529833462b71a41a45be97290b6f";
    assert_eq!(shake128(b"", 512)[480..], hex(last));
    let long = "131ab8d2b594946b9c81333f9bb6e0ce75c3b93104fa3469d3917457385da037";
    assert_eq!(shake128(&[0xA3; 200], 32), hex(long));
    let last = "44c9fb359fd56ac0a9a75a743cff6862f17d7259ab075216c0699511643b6439";
    assert_eq!(shake128(&[0xA3; 200], 512)[480..], hex(last));
}

// Python's hashlib gave these.
const SHA3_256_COUNTED: [(usize, &str); 7] = [
    (
        1,
        "5d53469f20fef4f8eab52b88044ede69c77a6a68a60728609fc4a65ff531e7d0",
    ),
    (
        134,
        "644e15224f5597351aef5c4bdd22b27ca0c19db2244431534c2a4a0bebfdf39c",
    ),
    (
        135,
        "fded8fd9d6551c601eeb3b7c6bc5e5cfd8aad1d015b7e9aaa9c9b9475231d5e2",
    ),
    (
        136,
        "cf3ccff92480a29160c2d38317c430e14749bfee1788106957dfe73f8c4930e5",
    ),
    (
        137,
        "ce9d7dc90913ee5d92745019479a5352c6d6279bef18ed07dc0a83ee8084daca",
    ),
    (
        271,
        "d409bcbb54825556454a757a1f629135ba49c0467dcf6b4e0aa69e9718dd31e6",
    ),
    (
        272,
        "0b21ec4a8eff6d179e09ba9fe0ab08515b24e0923fbf419f5c30a38e64577db5",
    ),
];

const SHAKE128_COUNTED: [(usize, &str); 7] = [
    (1, "0b784469a0628e03861cd8a196dfafa0"),
    (166, "3ba54a1410815583e600db440b79530c"),
    (167, "1e552791cc4e93a0d4a8dc47ae49228c"),
    (168, "f15277eb61c4908d44a2853f3cde071a"),
    (169, "015be3338c986d9846affa0f94b4afc2"),
    (335, "aec267cacde6c617c3e59fca945c4681"),
    (336, "1ec1f8887fb8a5ecd8fc269220332026"),
];

/// Inputs 0, 1, 2, .. around the ends of the blocks: the padding of one bit,
/// of a whole block, and a second block.
#[test]
fn around_the_blocks() {
    let counted: Vec<u8> = (0..=255)
        .cycle()
        .take(400)
        .map(|byte: u16| byte as u8)
        .collect();
    for (length, expected) in SHA3_256_COUNTED {
        assert_eq!(sha3_256(&counted[..length]), hex(expected), "{length}");
    }
    for (length, expected) in SHAKE128_COUNTED {
        assert_eq!(shake128(&counted[..length], 16), hex(expected), "{length}");
    }
}

#[test]
fn a_longer_output_begins_with_a_shorter_one() {
    let input = Generator::new(70).bytes(300);
    let whole = shake128(&input, 1000);
    for length in [0, 1, 31, 167, 168, 169, 335, 336, 337, 504, 999] {
        assert_eq!(shake128(&input, length), whole[..length]);
    }
}

#[test]
fn shake128_fills_its_output() {
    let input = Generator::new(71).bytes(100);
    for length in [0, 1, 168, 169, 500] {
        let mut output = vec![7; length];
        assert_eq!(calls::shake128(&input, &mut output), Ok(length));
        assert_eq!(output, shake128(&input, length));
    }
}

#[test]
fn sha3_256_has_zeros_behind_it() {
    for room in [32, 33, 100] {
        let mut output = vec![7; room];
        assert_eq!(calls::sha3_256(b"abc", &mut output), Ok(32));
        assert_eq!(output[..32], sha3_256(b"abc"));
        assert_eq!(output[32..], vec![0; room - 32]);
    }
}

#[test]
fn the_longest_input_is_65536() {
    let input = Generator::new(72).bytes(65537);
    let mut output = [7; 40];
    assert_eq!(calls::shake128(&input[..65536], &mut output), Ok(40));
    assert_eq!(calls::sha3_256(&input[..65536], &mut output), Ok(32));
    for call in [calls::shake128, calls::sha3_256] {
        output.fill(7);
        assert_eq!(call(&input, &mut output), Err(refusal(2, 0)));
        assert_eq!(output, [0; 40]);
    }
    assert_eq!(calls::shake128(&input, &mut []), Err(refusal(2, 0)));
}

#[test]
fn a_short_output_of_sha3_256() {
    for room in [0, 1, 31] {
        let mut output = vec![7; room];
        assert_eq!(calls::sha3_256(b"", &mut output), Err(refusal(3, 0)));
        assert_eq!(output, vec![0; room]);
        let answer = calls::sha3_256(&[0; 65537], &mut vec![7; room]);
        assert_eq!(answer, Err(refusal(2, 0)));
    }
}
