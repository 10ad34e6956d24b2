//! plans SEED COUNT: plans of COUNT cases of SEED, as generated and fitted, on both sides. The exit code is 1 if the sides differ.
use pywr_reference::correspondence::{FittedCase, Tried, try_generated};

fn main() {
    let numbers = std::env::args().skip(1).map(|word| word.parse().ok()).collect::<Option<Vec<u64>>>();
    let Some(&[seed, count]) = numbers.as_deref() else {
        eprintln!("plans SEED COUNT");
        std::process::exit(2);
    };
    let (mut generated, mut fitted, mut differences) = (Tried::default(), Tried::default(), 0);
    for index in 0..count {
        let of_fitted = FittedCase::new(seed, index).map_or(Ok(()), |case| case.try_plans(&mut fitted));
        for difference in [try_generated(seed, index, &mut generated), of_fitted].into_iter().filter_map(Result::err) {
            println!("{difference}");
            differences += 1;
        }
    }
    println!("As generated\n{generated}\nFitted\n{fitted}\ndifferences: {differences}");
    std::process::exit((differences > 0) as i32);
}
