// Writes `f32::log2` of 1 to 1,024 as this target computes it when it runs: n, the bits, the shortest decimal literal.
// Run: rustc -O -o log2dump tools/log2dump.rs && ./log2dump
use std::hint::black_box;

fn main() {
    for n in 1u32..=1024 {
        // hidden from the compiler, which would otherwise compute the logarithm itself, with the library of its own build
        let log = black_box(black_box(n) as f32).log2();
        let literal = format!("{log:?}");
        assert_eq!(literal.parse::<f32>().unwrap().to_bits(), log.to_bits());
        println!("{n} {} {literal}", log.to_bits());
    }
}
