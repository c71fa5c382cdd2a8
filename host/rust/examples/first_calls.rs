//! A few calls through the proved library: roots, and eigenvalues in IEEE 754's total order.

fn main() {
    println!("Square roots, correctly rounded:");
    println!("  {:>24}  {:>24}  bits of the root", "x", "root");
    for x in [
        4.0,
        2.0,
        1e300,
        f64::from_bits(1),
        -0.0,
        -1.0,
        f64::INFINITY,
    ] {
        let root = maghnelt::sqrt(x);
        println!("  {x:>24e}  {root:>24e}  {:016X}", root.to_bits());
    }

    println!();
    println!("Eigenvalues as a decomposition hands them over, and in rising total order (the first one's vector is the normal):");
    for eigenvalues in [[1.0, 1.0, 0.0], [0.0, -0.0, 1.0], [f64::NAN, 2.5e-3, 7.0]] {
        let mut order = [0, 1, 2];
        order.sort_by_key(|&k: &usize| maghnelt::total_order_key(eigenvalues[k].to_bits()));
        let sorted = order.map(|k| eigenvalues[k]);
        println!(
            "  {eigenvalues:?}  ->  {sorted:?}, the axis of least scatter is vector {}",
            order[0]
        );
    }
}
