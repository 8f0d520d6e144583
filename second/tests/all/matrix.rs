use second::matrix::{a_s, b1_s, product, s1_a, s1_b};

/// A matrix of rows by columns that is 1 at one place.
fn unit(rows: usize, columns: usize, row: usize, column: usize) -> Vec<i128> {
    let mut answer = vec![0; rows * columns];
    answer[row * columns + column] = 1;
    answer
}

#[test]
fn a_product_by_hand() {
    let left = [1, 2, 3, 4, 5, 6];
    let right = [7, 8, 9, 10, 11, 12];
    assert_eq!(product(&left, &right, (2, 3, 2), 1000), [58, 64, 139, 154]);
    assert_eq!(product(&left, &right, (2, 3, 2), 50), [8, 14, 39, 4]);
    let other = [39, 54, 69, 49, 68, 87, 59, 82, 105];
    assert_eq!(product(&right, &left, (3, 2, 3), 1000), other);
}

#[test]
fn negative_entries_are_reduced_upward() {
    assert_eq!(product(&[1, -1], &[0, 1], (1, 2, 1), 2048), [2047]);
}

#[test]
fn units_show_rows_and_columns() {
    // The unit at (i, k) times the unit at (k, j) is the unit at (i, j).
    let n = 10;
    let a = unit(n, n, 2, 5);
    assert_eq!(a_s(&a, &unit(n, 8, 5, 7), n, 2048), unit(n, 8, 2, 7));
    assert_eq!(a_s(&a, &unit(n, 8, 2, 7), n, 2048), vec![0; 8 * n]);
    assert_eq!(s1_a(&unit(8, n, 3, 2), &a, n, 2048), unit(8, n, 3, 5));
    assert_eq!(s1_a(&unit(8, n, 3, 5), &a, n, 2048), vec![0; 8 * n]);
    let (left, right) = (unit(8, n, 6, 9), unit(n, 8, 9, 1));
    assert_eq!(s1_b(&left, &right, n, 2048), unit(8, 8, 6, 1));
    assert_eq!(b1_s(&left, &right, n, 2048), unit(8, 8, 6, 1));
}

#[test]
fn both_ways_round_the_same() {
    // S'(AS) is (S'A)S.
    let n = 5;
    let a: Vec<i128> = (0..25).map(|k| k * k + 3).collect();
    let s: Vec<i128> = (0..40).map(|k| k % 7 - 3).collect();
    let s1: Vec<i128> = (0..40).map(|k| k % 5 - 2).collect();
    let left = s1_b(&s1, &a_s(&a, &s, n, 4096), n, 4096);
    let right = b1_s(&s1_a(&s1, &a, n, 4096), &s, n, 4096);
    assert_eq!(left, right);
}
