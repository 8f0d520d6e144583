//! ChaCha20 with an 8-byte nonce, for the published vectors alone, with test
//! vectors of its own.

/// The first bytes of the key stream from block 0 on.
pub fn chacha20(key: &[u8], nonce: [u8; 8], length: usize) -> Vec<u8> {
    let mut output = vec![];
    let mut block = 0u64;
    while output.len() < length {
        output.extend(chacha20_block(key, nonce, block));
        block += 1;
    }
    output.truncate(length);
    output
}

fn chacha20_block(key: &[u8], nonce: [u8; 8], block: u64) -> Vec<u8> {
    let bytes = [
        b"expand 32-byte k",
        key,
        &block.to_le_bytes()[..],
        &nonce[..],
    ]
    .concat();
    let mut start = [0u32; 16];
    for (word, bytes) in start.iter_mut().zip(bytes.chunks_exact(4)) {
        *word = u32::from_le_bytes(bytes.try_into().unwrap());
    }
    let mut words = start;
    for _ in 0..10 {
        for i in 0..4 {
            quarter(&mut words, [i, 4 + i, 8 + i, 12 + i]);
        }
        for i in 0..4 {
            let diagonal = [i, 4 + (i + 1) % 4, 8 + (i + 2) % 4, 12 + (i + 3) % 4];
            quarter(&mut words, diagonal);
        }
    }
    let sums = words.iter().zip(start).map(|(w, s)| w.wrapping_add(s));
    sums.flat_map(u32::to_le_bytes).collect()
}

fn quarter(words: &mut [u32; 16], [a, b, c, d]: [usize; 4]) {
    let steps = [(a, b, d, 16), (c, d, b, 12), (a, b, d, 8), (c, d, b, 7)];
    for (to, from, turned, by) in steps {
        words[to] = words[to].wrapping_add(words[from]);
        words[turned] = (words[turned] ^ words[to]).rotate_left(by);
    }
}

/// Bytes of a text in hexadecimal digits.
pub fn hex(text: &str) -> Vec<u8> {
    let digit = |at: usize| u8::from_str_radix(&text[at..at + 2], 16).unwrap();
    (0..text.len()).step_by(2).map(digit).collect()
}

#[test]
fn chacha20_vectors() {
    let mut key = [0; 32];
    let zero = "76b8e0ada0f13d90405d6ae55386bd28bdd219b8a08ded1aa836efcc8b770dc7\
                da41597c5157488d7724e03fb8d84a376a43b8f41518a11cc387b669b2ee6586\
                9f07e7be5551387a98ba977c732d080dcb0f29a048e3656912c6533e32ee7aed";
    assert_eq!(chacha20(&key, [0; 8], 96), hex(zero));
    let first = "ef3fdfd6c61578fbf5cf35bd3dd33b8009631634d21e42ac33960bd138e50d32";
    assert_eq!(chacha20(&key, [1, 0, 0, 0, 0, 0, 0, 0], 32), hex(first));
    let last = "de9cba7bf3d69ef5e786dc63973f653a0b49e015adbff7134fcb7df137821031";
    assert_eq!(chacha20(&key, [0, 0, 0, 0, 0, 0, 0, 1], 32), hex(last));
    key[31] = 1;
    let other = "4540f05a9f1fb296d7736e7b208e3c96eb4fe1834688d2604f450952ed432d41";
    assert_eq!(chacha20(&key, [0; 8], 32), hex(other));
}
