//! generate SEED INDEX DIR: writes case INDEX of SEED as the files `network` and `step-0`, `step-1` and so on.
use pywr_reference::generate;

fn main() {
    let args: Vec<String> = std::env::args().skip(1).collect();
    let [seed, index, folder] = &args[..] else {
        eprintln!("generate SEED INDEX DIR");
        std::process::exit(2);
    };
    let number = |s: &String| s.parse().unwrap_or_else(|_| panic!("`{s}` is no number"));
    let case = generate::case(number(seed), number(index));
    let write =
        |name: String, bytes: &[u8]| std::fs::write(format!("{folder}/{name}"), bytes).unwrap_or_else(|e| panic!("{name}: {e}"));
    std::fs::create_dir_all(folder).unwrap_or_else(|e| panic!("{folder}: {e}"));
    write("network".into(), &case.network);
    for (k, step) in case.steps.iter().enumerate() {
        write(format!("step-{k}"), step);
    }
    println!("{} network, {:?} as sentinel, {} steps", case.kind, case.sentinel, case.steps.len());
}
