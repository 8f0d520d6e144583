use crate::generator::Generator;
use second::polynomial;
use second::signed::remainder;
use second::transform::{inverse, inverse_of_7, power, product, transform};

const Q: i128 = 12289;

fn random(generator: &mut Generator) -> Vec<i128> {
    (0..1024)
        .map(|_| i128::from(generator.below(12289)))
        .collect()
}

fn unit(place: usize) -> Vec<i128> {
    let mut answer = vec![0; 1024];
    answer[place] = 1;
    answer
}

#[test]
fn powers() {
    assert_eq!(power(7, 0), 1);
    assert_eq!(power(7, 1), 7);
    assert_eq!(power(7, 1024), 12288);
    assert_eq!(power(7, 2048), 1);
    assert_eq!(power(49, 1024), 1);
    assert_eq!(remainder(7 * inverse_of_7(), Q), 1);
    assert_eq!(remainder(1024 * 12277, Q), 1);
}

#[test]
fn the_2048_powers_of_7_all_differ() {
    let mut powers: Vec<i128> = (0..2048).map(|j| power(7, j)).collect();
    powers.sort();
    powers.dedup();
    assert_eq!(powers.len(), 2048);
}

#[test]
fn of_one_is_all_ones() {
    assert_eq!(transform(&unit(0)), vec![1; 1024]);
}

#[test]
fn of_x_is_7_times_the_powers_of_49() {
    let answer = transform(&unit(1));
    assert_eq!(answer[..2], [7, 343]);
    for (i, entry) in answer.iter().enumerate() {
        assert_eq!(*entry, remainder(7 * power(49, i), Q));
    }
}

#[test]
fn a_few_entries_word_by_word() {
    let mut generator = Generator::new(6);
    let mut g = vec![0; 1024];
    let places = [0, 1, 2, 3, 511, 512, 1022, 1023];
    for j in places {
        g[j] = i128::from(generator.below(12289));
    }
    let answer = transform(&g);
    for i in [0, 1, 2, 5, 512, 777, 1023] {
        let mut entry = 0;
        for j in places {
            let term = power(7, j) * g[j] * power(49, i * j);
            entry = remainder(entry + term, Q);
        }
        assert_eq!(answer[i], entry);
    }
}

#[test]
fn the_inverse_undoes_it_both_ways() {
    let mut generator = Generator::new(7);
    let g = random(&mut generator);
    assert_eq!(inverse(&transform(&g)), g);
    assert_eq!(transform(&inverse(&g)), g);
    for place in [0, 1, 2, 1023] {
        assert_eq!(inverse(&transform(&unit(place))), unit(place));
        assert_eq!(transform(&inverse(&unit(place))), unit(place));
    }
}

#[test]
fn the_product_through_it_is_the_product() {
    let mut generator = Generator::new(8);
    let (f, g) = (random(&mut generator), random(&mut generator));
    assert_eq!(product(&f, &g), polynomial::product(&f, &g, Q));
    let minus_one: Vec<i128> = unit(0).iter().map(|x| remainder(-x, Q)).collect();
    assert_eq!(product(&unit(1023), &unit(1)), minus_one);
}

#[test]
fn negative_entries_count_as_their_remainders() {
    let mut generator = Generator::new(9);
    let g: Vec<i128> = (0..1024)
        .map(|_| i128::from(generator.below(33)) - 16)
        .collect();
    let reduced: Vec<i128> = g.iter().map(|&x| remainder(x, Q)).collect();
    assert_eq!(transform(&g), transform(&reduced));
}
