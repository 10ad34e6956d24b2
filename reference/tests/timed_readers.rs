//! The readers that the benchmark times give the Rust what the ordinary ones give it, and refuse what they refuse.
use pywr_reference::solver::{Altered, Solver};
use pywr_reference::timed::{network_reader, step_reader::StepReader};
use pywr_reference::{NetworkFile, generate, step_file};

#[test]
fn networks_and_steps_are_read_alike() {
    let mut steps = [0; 2];
    for index in 0..2000 {
        let case = generate::case(11, index);
        let file = NetworkFile::read(&case.network).and_then(|file| file.check().map(|()| file));
        let timed = network_reader::read(&case.network);
        assert_eq!(file.as_ref().err(), timed.as_ref().err(), "case {index}");
        let (Ok(file), Ok(timed)) = (file, timed) else { continue };
        // Names apart, which the timed reader leaves out.
        let network = file.network();
        assert_eq!(nameless(&format!("{network:?}")), nameless(&format!("{timed:?}")), "case {index}");
        let high = case.sentinel.high();
        let mut solvers = [Altered::create(&network, high).unwrap(), Altered::create(&timed, high).unwrap()];
        let mut reader = StepReader::new(&file);
        for step in &case.steps {
            let read = step_file::read(&file, step);
            let timed_read = reader.read(step);
            steps[read.is_ok() as usize] += 1;
            match (read, timed_read) {
                (Ok((timestep, state)), Ok((timed_timestep, timed_state))) => {
                    assert_eq!(format!("{timestep:?}{state:?}"), format!("{timed_timestep:?}{timed_state:?}"), "case {index}");
                    let answers = [
                        solvers[0].step(&network, &timestep, &state).is_ok(),
                        solvers[1].step(&timed, &timed_timestep, timed_state).is_ok(),
                    ];
                    assert_eq!(answers[0], answers[1]);
                }
                (read, timed_read) => assert_eq!(read.err(), timed_read.err(), "case {index}"),
            }
        }
        assert!(solvers[0].programme().same_bits(&solvers[1].programme()));
    }
    assert!(steps.iter().all(|&n| n > 500), "{steps:?}");
}

/// The debug text without what stands in quotes.
fn nameless(text: &str) -> String {
    text.split('"').step_by(2).collect()
}
