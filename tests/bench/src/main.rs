//! What each call costs, for the product and for the second program.
//!
//! One process, one thread, the same words for both, measured in turns.

mod calls;
mod inputs;
mod ledgers;
mod lookups;
mod picture;
mod processes;

use random::call::Face;
use std::env;
use std::path::{Path, PathBuf};
use std::process::ExitCode;

const USAGE: &str = "\
bench [--before PATH | --before-four PATH] [--known PATH] [--ours PATH --second PATH] [--svg PATH]
  --before           another build of the product, a shared object
  --before-four      the same, from before there were editions: its filz_open
                     takes four numbers, and it is left out where an edition is told
  --known            its lookups on words known to be a ledger, a shared object
  --ours, --second   the two console programs
  --svg              where the picture goes, else beside this program";

fn main() -> ExitCode {
    let Some(order) = Order::read() else {
        eprintln!("{USAGE}");
        return ExitCode::from(2);
    };
    if cfg!(debug_assertions) {
        println!("note: this is not a release build");
    }
    let load = |(path, has_editions): &(PathBuf, bool)| load(path, *has_editions);
    let before = order.before.as_ref().map(load).transpose();
    let known = order.known.as_deref().map(load_known).transpose();
    let (before, known) = match (before, known) {
        (Ok(before), Ok(known)) => (before, known),
        (Err(what), _) | (_, Err(what)) => {
            println!("FAILED: {what}");
            return ExitCode::FAILURE;
        }
    };
    let costs = calls::measure(before.as_deref());
    calls::print(&costs);
    lookups::measure_and_print(known.as_deref());
    match (&order.ours, &order.second) {
        (Some(ours), Some(second)) => {
            if let Err(what) = processes::measure_and_print(ours, second) {
                println!("FAILED: {what}");
                return ExitCode::FAILURE;
            }
        }
        _ => println!("\nconsoles: not measured, no paths given"),
    }
    match std::fs::write(&order.svg, picture::draw(&costs)) {
        Ok(()) => println!("\npicture: {}", order.svg.display()),
        Err(error) => {
            println!("FAILED: the picture was not written: {error}");
            return ExitCode::FAILURE;
        }
    }
    ExitCode::SUCCESS
}

/// Another build of the product.
#[cfg(feature = "station")]
fn load(path: &Path, has_editions: bool) -> Result<Box<dyn Face>, String> {
    let face = random::station::Station::load(path, has_editions)?;
    match ledgers::words_for(&face) {
        Some(_) => Ok(Box::new(face)),
        None => Err(format!("{} opens no workspace", path.display())),
    }
}
#[cfg(not(feature = "station"))]
fn load(_: &Path, _: bool) -> Result<Box<dyn Face>, String> {
    Err("--before compares with the product, which is not linked".to_string())
}

/// The product's lookups without the test of soundness.
#[cfg(feature = "station")]
fn load_known(path: &Path) -> Result<Box<dyn Face>, String> {
    Ok(Box::new(random::station::Known::load(path)?))
}
#[cfg(not(feature = "station"))]
fn load_known(_: &Path) -> Result<Box<dyn Face>, String> {
    Err("--known is measured beside the product, which is not linked".to_string())
}

struct Order {
    /// With whether it knows of editions.
    before: Option<(PathBuf, bool)>,
    known: Option<PathBuf>,
    ours: Option<PathBuf>,
    second: Option<PathBuf>,
    svg: PathBuf,
}

impl Order {
    fn read() -> Option<Order> {
        let mut order = Order {
            before: None,
            known: None,
            ours: None,
            second: None,
            svg: env::current_exe().ok()?.with_file_name("cost.svg"),
        };
        let mut arguments = env::args().skip(1);
        while let Some(argument) = arguments.next() {
            let path = PathBuf::from(arguments.next()?);
            match &argument[..] {
                "--before" => order.before = Some((path, true)),
                "--before-four" => order.before = Some((path, false)),
                "--known" => order.known = Some(path),
                "--ours" => order.ours = Some(path),
                "--second" => order.second = Some(path),
                "--svg" => order.svg = path,
                _ => return None,
            }
        }
        Some(order)
    }
}
