//! 01, "Easy to get wrong", in its order, through the calls.

use crate::inputs::Inputs;
use second::calls::bench;
use second::line::line;
use second::packing::{pack, unpack};
use second::refusal::refusal;
use second::schemes::SIX;
use second::transform::transform;

#[test]
fn the_minus_sign_when_a_product_passes_x_1023() {
    let mut inputs = Inputs::zero(&SIX[0]);
    inputs.a[1023] = 1;
    inputs.s[1] = 1;
    inputs.s1[1] = 1;
    let opening = inputs.opening();
    assert_eq!(opening[..4], 4294967294u32.to_le_bytes());
    assert_eq!(opening[4..], [0; 4092]);
    let (reply, _) = inputs.reply_and_key(&opening);
    assert_eq!(reply[..4096], opening);

    let mut inputs = Inputs::zero(&SIX[1]);
    let mut high = vec![0; 1024];
    high[1023] = 1;
    inputs.a = transform(&high).iter().map(|&x| x as u32).collect();
    inputs.s[1] = 1;
    assert_eq!(unpack(&inputs.opening()[..1792], 14), [12288; 1024]);
}

#[test]
fn ff_ff_ff_ff_is_refused_not_0() {
    let inputs = Inputs::zero(&SIX[0]);
    for place in [0, 1, 1023] {
        let mut message = vec![0; 4096];
        message[4 * place..4 * place + 4].fill(0xFF);
        let (mut reply, mut key, mut digest) = ([7; 4224], [7; 128], [7; 32]);
        let answer = inputs.reply(&message, &mut reply, &mut key, &mut digest);
        assert_eq!(answer, Err(refusal(5, place)));
        assert_eq!((reply, key, digest), ([0; 4224], [0; 128], [0; 32]));
        message.extend([0; 128]);
        let (mut key, mut digest) = ([7; 128], [7; 32]);
        let answer = inputs.finish(&message, &mut key, &mut digest);
        assert_eq!(answer, Err(refusal(5, place)));
        assert_eq!((key, digest), ([0; 128], [0; 32]));
        message[4 * place] = 0xFE;
        let answer = inputs.finish(&message, &mut key, &mut digest);
        assert_eq!(answer, Ok((128, 32)));
    }
}

#[test]
fn the_order_of_frodos_matrices_and_rows() {
    // A is 1 at row 2, column 5 only.
    for s in &SIX[2..] {
        let n = s.n;
        let mut inputs = Inputs::zero(s);
        inputs.a[2 * n + 5] = 1;
        // S is 1 at row 5, column 7: AS is 1 at row 2, column 7.
        inputs.s[5 * 8 + 7] = 1;
        let mut b = vec![0; 8 * n];
        b[2 * 8 + 7] = 1;
        let opening = inputs.opening();
        assert_eq!(unpack(&opening[16..], s.width), b);
        // S' is 1 at row 3, column 2: S'A is 1 at row 3, column 5.
        inputs.s1[3 * n + 2] = 1;
        let mut u = vec![0; 8 * n];
        u[3 * n + 5] = 1;
        let (reply, _) = inputs.reply_and_key(&opening);
        assert_eq!(unpack(&reply[..s.packed_bytes()], s.width), u);
    }
}

#[test]
fn frodos_mixed_values_lie_row_after_row() {
    // V = S'B has q/2 at row 3, column 7 only; so has W = B'S.
    for s in &SIX[2..] {
        let n = s.n;
        let half = (s.q / 2) as u32;
        let mut inputs = Inputs::sparse(s);
        inputs.s1[3 * n + 2] = 1;
        let mut b = vec![0; 8 * n];
        b[2 * 8 + 7] = half;
        let opening = [vec![0; 16], pack(&b, s.width)].concat();
        let (_, key) = inputs.reply_and_key(&opening);
        let mut entries = vec![0; 64];
        entries[3 * 8 + 7] = 1 << (s.key_width() - 1);
        assert_eq!(key, pack(&entries, s.key_width()));

        inputs.s[5 * 8 + 7] = 1;
        let mut u = vec![0; 8 * n];
        u[3 * n + 5] = half;
        let reply = [pack(&u, s.width), vec![0; 8]].concat();
        assert_eq!(inputs.peer(&reply), key);
    }
}

#[test]
fn twice_w_is_compared_in_bcns() {
    let low = line(b"scheme=0\ncoin=2\nv=1073741824\nw=1610612735\n");
    assert_eq!(low, b"hint=0\nkey=0\npeer=0\n");
    let high = line(b"scheme=0\ncoin=2\nv=1073741824\nw=1610612736\n");
    assert_eq!(high, b"hint=0\nkey=0\npeer=1\n");

    // With s = 1 the initiator's value is what the reply holds.
    let mut inputs = Inputs::zero(&SIX[0]);
    inputs.s[0] = 1;
    let mut w = vec![0; 1024];
    w[8] = 1610612735;
    w[9] = 1610612736;
    let reply = [pack(&w, 32), vec![0; 128]].concat();
    let key = inputs.peer(&reply);
    assert_eq!(key[..2], [0, 2]);
    assert_eq!(key[2..], [0; 126]);
}

#[test]
fn a_negative_difference_is_not_cut_toward_zero() {
    let answer = line(b"scheme=0\ncoin=2\nv=0\nw=0\n");
    assert_eq!(answer, b"hint=1\nkey=0\npeer=0\n");
    let mut inputs = Inputs::sparse(&SIX[0]);
    inputs.coins.fill(0b1010_1010);
    let (reply, key) = inputs.reply_and_key(&inputs.opening());
    assert_eq!(reply[4096..], [0xFF; 128]);
    assert_eq!(key, [0; 128]);
    assert_eq!(inputs.peer(&reply), key);
}

#[test]
fn the_scheme_number_is_not_cut_to_a_byte() {
    let i = Inputs::zero(&SIX[0]);
    for scheme in [6, 256, 1 << 32] {
        let answer = bench(
            scheme, &i.a, &i.s, &i.e, &i.seed, &i.s1, &i.e1, &i.e2, &i.coins,
        );
        assert_eq!(answer, Err(refusal(1, 0)));
    }
}
