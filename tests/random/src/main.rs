//! Random runs of the product against the second program.

use random::call::{Face, Second};
use random::compare::{self, Difference};
use random::consoles::{self, Executable, Mismarked, MISREAD};
use random::files;
use random::planted::{Plant, Planted};
use random::relay::Relay;
use random::report;
use random::tally::{self, Tally};
use std::process::ExitCode;
use std::time::{Instant, SystemTime};
use std::{env, io};

const USAGE: &str = "\
random consoles COUNT [SEED] --ours PATH   our console against the second one
random calls COUNT [SEED]                  our library against the second one
random calls COUNT [SEED] --ours RELAY     the same, asked through a program
random calls COUNT [SEED] --copy           a copy of the second one against it
random files COUNT [SEED] [as for calls]   the same, on day files
random plant [COUNT] [SEED]                planted errors must be found";

/// A plant is looked for in up to so many times the calls, or the files, that a
/// run compares: what is drawn is chance, and no verdict may hang on that.
const PATIENCE: usize = 10;

fn main() -> ExitCode {
    let arguments: Vec<String> = env::args().skip(1).collect();
    let Some(order) = Order::read(&arguments) else {
        eprintln!("{USAGE}");
        return ExitCode::from(2);
    };
    println!("seed {}", order.seed);
    let start = Instant::now();
    let result = order.run();
    println!("{:.1} s", start.elapsed().as_secs_f64());
    match result {
        Ok(()) => ExitCode::SUCCESS,
        Err(what) => {
            println!("FAILED: {what}");
            ExitCode::FAILURE
        }
    }
}

/// What is to be done.
struct Order {
    what: String,
    count: usize,
    seed: u64,
    ours: Option<String>,
    is_copy: bool,
}

impl Order {
    fn read(arguments: &[String]) -> Option<Order> {
        let (what, rest) = arguments.split_first()?;
        let mut order = Order {
            what: what.clone(),
            count: 20_000,
            seed: SystemTime::UNIX_EPOCH.elapsed().ok()?.as_nanos() as u64,
            ours: None,
            is_copy: false,
        };
        let mut numbers = 0;
        let mut rest = rest.iter();
        while let Some(argument) = rest.next() {
            match (&argument[..], numbers) {
                ("--ours", _) => order.ours = Some(rest.next()?.clone()),
                ("--copy", _) => order.is_copy = true,
                (count, 0) => order.count = count.parse().ok()?,
                (seed, 1) => order.seed = seed.parse().ok()?,
                _ => return None,
            }
            numbers += usize::from(!argument.starts_with("--"));
        }
        match &order.what[..] {
            "consoles" => (numbers > 0 && order.ours.is_some()).then_some(order),
            "calls" | "files" => (numbers > 0).then_some(order),
            "plant" => Some(order),
            _ => None,
        }
    }

    fn run(&self) -> Result<(), String> {
        match &self.what[..] {
            "consoles" => self.consoles(),
            "plant" => self.plant(),
            _ if self.is_copy => self.against(&Planted(None)),
            _ => match &self.ours {
                Some(program) => {
                    let relay = relay(program)?;
                    self.against(&relay).and_then(|()| relay.end())
                }
                None => self.against(station()?),
            },
        }
    }

    fn against(&self, ours: &dyn Face) -> Result<(), String> {
        match &self.what[..] {
            "files" => self.files(ours),
            _ => self.calls(ours),
        }
    }

    fn consoles(&self) -> Result<(), String> {
        let ours = Executable(self.ours.as_ref().expect("it was asked for").into());
        let (tally, difference) = consoles::compare(&ours, self.count, self.seed);
        if let Some(difference) = difference {
            let stem = format!("consoles-{}-{}", self.seed, difference.run);
            let input = consoles::input_of(self.seed, difference.run);
            let written = report::write(&format!("{stem}.input"), &input)
                .and_then(|path| {
                    println!("the input: {}", path.display());
                    report::write(&format!("{stem}.txt"), difference.text.as_bytes())
                })
                .map(|path| println!("what differs: {}", path.display()));
            return Err(told(written, &difference.text));
        }
        let is_enough = self.count >= consoles::ENOUGH;
        judge(&tally, consoles::missing(&tally), is_enough)?;
        println!("{} inputs, no difference", self.count);
        Ok(())
    }

    fn calls(&self, ours: &dyn Face) -> Result<(), String> {
        let (tally, difference) = compare::compare(ours, &Second, self.count, self.seed);
        self.report(difference)?;
        judge(&tally, tally.missing(), tally.calls >= tally::ENOUGH)?;
        println!("{} calls, no difference", tally.calls);
        Ok(())
    }

    fn files(&self, ours: &dyn Face) -> Result<(), String> {
        let (tally, difference) = files::compare(ours, &Second, self.count, self.seed);
        self.report(difference)?;
        judge(&tally, files::missing(&tally), tally.calls >= files::ENOUGH)?;
        let [good, bad] = ["good", "bad"].map(|what| tally.count(what));
        println!(
            "{} files, {good} good and {bad} bad, no difference",
            tally.calls
        );
        Ok(())
    }

    /// Writes a difference out, if there is one.
    fn report(&self, difference: Option<Difference>) -> Result<(), String> {
        let Some(difference) = difference else {
            return Ok(());
        };
        let name = format!("{}-{}-{}.txt", self.what, self.seed, difference.run);
        let written = report::write(&name, difference.text.as_bytes())
            .map(|path| println!("the whole run: {}", path.display()));
        Err(told(written, &difference.text))
    }

    /// The copy without a plant must pass, and each plant must be found.
    fn plant(&self) -> Result<(), String> {
        let (_, difference) = compare::compare(&Planted(None), &Second, self.count, self.seed);
        if let Some(difference) = difference {
            return Err(format!("the copy itself differs\n{}", difference.text));
        }
        let (_, difference) = files::compare(&Planted(None), &Second, self.count, self.seed);
        if let Some(difference) = difference {
            return Err(format!("the copy itself differs\n{}", difference.text));
        }
        let count = self.count;
        println!(
            "{:<32} no difference in {count} calls and {count} files",
            "no plant"
        );
        let most = PATIENCE * self.count;
        let mut unnoticed = Vec::new();
        let mut judge = |plant: String, found: Option<String>| match found {
            Some(how) => println!("{plant:<32} found {how}"),
            None => {
                println!("{plant:<32} NOT FOUND");
                unnoticed.push(plant);
            }
        };
        for plant in Plant::all() {
            let planted = Planted(Some(plant));
            let (tally, difference) = compare::compare(&planted, &Second, most, self.seed);
            let found = difference.map(|found| {
                let what = found.text.lines().nth(1).unwrap_or_default().to_string();
                format!("after {} calls: {what}", tally.calls)
            });
            judge(format!("{plant:?}"), found);
        }
        for plant in Plant::of_files() {
            let planted = Planted(Some(plant));
            let (tally, difference) = files::compare(&planted, &Second, most, self.seed);
            let found = difference.map(|_| format!("after {} files", tally.calls));
            judge(format!("{plant:?}, files"), found);
        }
        for plant in Plant::shown() {
            let (_, difference) =
                consoles::compare(&Mismarked(plant), 4 * consoles::ENOUGH, self.seed);
            let found = difference.map(|found| format!("by input {}", found.run));
            judge(format!("{plant:?}, consoles"), found);
        }
        for planted in &MISREAD {
            let (_, difference) = consoles::compare(planted, 4 * consoles::ENOUGH, self.seed);
            let found = difference.map(|found| format!("by input {}", found.run));
            judge(planted.name.to_string(), found);
        }
        if unnoticed.is_empty() {
            Ok(())
        } else {
            Err(format!("unnoticed: {unnoticed:?}"))
        }
    }
}

#[cfg(feature = "station")]
fn station() -> Result<&'static dyn Face, String> {
    Ok(&random::station::LINKED)
}

#[cfg(not(feature = "station"))]
fn station() -> Result<&'static dyn Face, String> {
    Err("built without the feature `station`".to_string())
}

fn relay(program: &str) -> Result<Relay, String> {
    Relay::start(program).map_err(|error| format!("{program} does not start: {error}"))
}

/// Prints what was reached; too little is a failure.
fn judge(tally: &Tally, missing: Vec<String>, is_enough: bool) -> Result<(), String> {
    print!("{tally}");
    if missing.is_empty() {
        return Ok(());
    }
    println!("never seen: {missing:?}");
    if is_enough {
        return Err("the run reached too little".to_string());
    }
    Ok(())
}

/// The first lines of a difference, and whether it could be written out.
fn told(written: io::Result<()>, text: &str) -> String {
    let head: Vec<&str> = text.lines().take(4).collect();
    match written {
        Ok(()) => head.join("\n"),
        Err(error) => format!("{}\n(not written out: {error})", head.join("\n")),
    }
}
