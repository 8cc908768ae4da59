// Single characters: on average over all pairs of a shape and a class of one degree, and at worst; and character
// degrees, on average over all shapes.
use crate::{class_word, found, library, partitions, shape_word};
use std::hint::black_box;

// The average is of the best of some rounds over all pairs, the worst that of the pair whose best time is longest.
pub fn times(best: impl Fn(u32, &mut dyn FnMut()) -> f64, symmetrica: &[Vec<String>]) {
    println!("single character   average        worst          Symmetrica average (ratio) worst (ratio)");
    for (degree, rounds) in [(8u32, 200u32), (12, 20), (14, 5), (16, 3)] {
        let all = partitions(degree, degree);
        let shapes: Vec<u32> = all.iter().map(|parts| shape_word(parts)).collect();
        let classes: Vec<u32> = all.iter().map(|parts| class_word(parts)).collect();
        let round = best(rounds, &mut || for &shape in &shapes {
            for &class in &classes {
                black_box(library::character(black_box(shape), black_box(class)));
            }
        });
        let mean = round / (all.len() * all.len()) as f64;
        let pairs = shapes.iter().flat_map(|&shape| classes.iter().map(move |&class| (shape, class)));
        let worst = pairs.map(|(shape, class)| best(5, &mut || {
            black_box(library::character(black_box(shape), black_box(class)));
        })).fold(0f64, f64::max);
        let name = degree.to_string();
        let theirs = found(symmetrica, &["single", &name], 0);
        let their_worst = found(symmetrica, &["single", &name], 1);
        println!(
            "degree {degree:>2}     {:>9.3} µs {:>12.1} µs {:>12.3} µs ({:>5.2}) {:>14.1} µs ({:>5.2})",
            mean / 1e3, worst / 1e3, theirs / 1e3, theirs / mean, their_worst / 1e3, their_worst / worst
        );
    }
}

pub fn degrees(best: impl Fn(u32, &mut dyn FnMut()) -> f64, symmetrica: &[Vec<String>]) {
    println!("character degree   average        Symmetrica (ratio)");
    for degree in [8u32, 12, 14, 16] {
        let shapes: Vec<u32> = partitions(degree, degree).iter().map(|parts| shape_word(parts)).collect();
        let round = best(200, &mut || for &shape in &shapes {
            black_box(library::character_degree(black_box(shape)));
        });
        let mean = round / shapes.len() as f64;
        let theirs = found(symmetrica, &["degrees", &degree.to_string()], 0);
        println!("degree {degree:>2}     {:>9.3} µs {:>12.3} µs ({:>5.2})", mean / 1e3, theirs / 1e3, theirs / mean);
    }
}
