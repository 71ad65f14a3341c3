//! Rounding and the weighted mean against exact fractions.

mod common;

use common::fraction::Fraction;
use common::Generator;
use reference::planes::{final_difference, round, weighted_mean, whole};

/// The weighted mean with weights that are fractions.
fn mean_by_fractions(values: [i64; 4], gradients: [i64; 4]) -> Fraction {
    let zero = Fraction::whole(0);
    let some_zero = gradients.contains(&0);
    let weight = |gradient: i64| match (some_zero, gradient) {
        (true, 0) => Fraction::whole(1),
        (true, _) => zero,
        (false, gradient) => Fraction::whole(1) / Fraction::whole(gradient.into()),
    };
    let weights = gradients.map(weight);
    let sum = (0..4).fold(zero, |sum, k| {
        sum + weights[k] * Fraction::whole(values[k].into())
    });
    sum / weights.into_iter().fold(zero, |sum, weight| sum + weight)
}

fn compare(values: [i64; 4], gradients: [i64; 4]) {
    let expected = mean_by_fractions(values, gradients).nearest_halves_upward();
    let found = i128::from(weighted_mean(values, gradients));
    assert_eq!(found, expected, "{values:?} under {gradients:?}");
}

#[test]
fn rounding_is_to_the_nearest_halves_upward() {
    for d in 1..=12 {
        for n in -60..=60 {
            let expected = Fraction::new(n, d).nearest_halves_upward();
            assert_eq!(round(n, d), expected, "{n}/{d}");
        }
    }
    assert_eq!(round(5, 2), 3);
    assert_eq!(round(-5, 2), -2);
}

#[test]
fn mean_of_small_values_and_gradients() {
    let mut generator = Generator::new(1);
    for _ in 0..40_000 {
        compare(
            [0; 4].map(|_| generator.between(-9, 9)),
            [0; 4].map(|_| generator.between(0, 6)),
        );
    }
}

#[test]
fn mean_of_great_values_and_gradients() {
    let mut generator = Generator::new(2);
    for _ in 0..40_000 {
        compare(
            [0; 4].map(|_| generator.between(-8_184, 8_184)),
            [0; 4].map(|_| generator.between(1, 81_840)),
        );
    }
    compare([8_184; 4], [81_840; 4]);
    compare([-8_184; 4], [81_840; 4]);
}

#[test]
fn mean_lies_between_the_values_and_follows_a_constant() {
    let mut generator = Generator::new(3);
    for _ in 0..20_000 {
        let values = [0; 4].map(|_| generator.between(-50, 50));
        let gradients = [0; 4].map(|_| generator.between(0, 40));
        let mean = weighted_mean(values, gradients);
        let least = values.into_iter().min().unwrap();
        let greatest = values.into_iter().max().unwrap();
        assert!(least <= mean && mean <= greatest);
        let constant = generator.between(-900, 900);
        let raised = weighted_mean(values.map(|value| value + constant), gradients);
        assert_eq!(raised, mean + constant);
    }
}

#[test]
fn final_difference_mixes_33_and_67_parts_of_a_hundred() {
    let mut generator = Generator::new(4);
    for _ in 0..20_000 {
        let (own, mean) = (
            generator.between(-8_184, 8_184),
            generator.between(-8_184, 8_184),
        );
        let parts = Fraction::new(33, 100) * Fraction::whole(own.into())
            + Fraction::new(67, 100) * Fraction::whole(mean.into());
        let quarters = parts / Fraction::whole(2);
        let expected = quarters.nearest_halves_upward();
        assert_eq!(i128::from(final_difference(own, mean)), expected);
    }
    // halves: 33·1 + 67·1 = 100, and 100/200 goes to 1, −100/200 to 0
    assert_eq!(final_difference(1, 1), 1);
    assert_eq!(final_difference(-1, -1), 0);
}

#[test]
fn quarters_become_whole_numbers() {
    let expected = [-2, -1, -1, -1, -1, 0, 0, 0, 0, 1, 1, 1, 1, 2];
    let found: Vec<i64> = (-7..=6).map(whole).collect();
    assert_eq!(found, expected);
}
