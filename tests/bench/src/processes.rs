//! Both consoles as processes, from start to end.

use crate::inputs;
use random::consoles::{Executable, Program};
use std::path::Path;
use std::time::Instant;

/// Runs of which the shortest is reported: it was interrupted least.
const RUNS: usize = 21;

pub fn measure_and_print(ours: &Path, second: &Path) -> Result<(), String> {
    let ours = Executable(ours.to_path_buf());
    let second = Executable(second.to_path_buf());
    println!("\nconsoles: milliseconds of a whole process, the shortest of {RUNS}, files warm\n");
    println!(
        "{:<26} {:>9} {:>9} {:>9} {:>9} {:>12} {:>9}",
        "input", "bytes in", "bytes out", "ours", "second", "ours/second", "control"
    );
    for (name, input) in inputs::all() {
        let (mut our_times, mut second_times) = (Vec::new(), Vec::new());
        let mut control_times = Vec::new();
        let mut printed = 0;
        // The first round warms up and compares the outputs.
        for round in 0..=RUNS {
            let (our_output, our_time) = timed(&ours, &input)?;
            let (second_output, second_time) = timed(&second, &input)?;
            let (_, control_time) = timed(&second, &input)?;
            if round == 0 {
                printed = our_output.len();
                if our_output != second_output {
                    return Err(format!("outputs differ on {name}"));
                }
                continue;
            }
            our_times.push(our_time);
            second_times.push(second_time);
            control_times.push(control_time);
        }
        let (ours, second) = (shortest(&our_times), shortest(&second_times));
        let control = shortest(&control_times);
        println!(
            "{name:<26} {:>9} {printed:>9} {ours:>9.2} {second:>9.2} {:>12.2} {:>9.2}",
            input.len(),
            ours / second,
            control / second
        );
    }
    Ok(())
}

fn shortest(times: &[f64]) -> f64 {
    times.iter().copied().fold(f64::INFINITY, f64::min)
}

fn timed(program: &dyn Program, input: &str) -> Result<(Vec<u8>, f64), String> {
    let start = Instant::now();
    let output = program.output(input.as_bytes())?;
    Ok((output, start.elapsed().as_secs_f64() * 1000.0))
}
