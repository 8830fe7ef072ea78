//! `page`: a page to hear and to see what an advance buys.

use crate::arguments::Arguments;
use crate::failure::{Failure, Outcome};
use crate::files;
use crate::page::page;
use crate::say::say;

pub fn run(arguments: &Arguments) -> Outcome {
    if !arguments.words.is_empty() {
        return Err(Failure::call("page takes no file but -o PAGE.html"));
    }
    let output = arguments.output("page", "PAGE.html")?;
    files::write(&output, page()?.as_bytes())?;
    say(&format!("{}: a page for a browser, which fetches nothing", files::output_name(&output)));
    Ok(())
}
