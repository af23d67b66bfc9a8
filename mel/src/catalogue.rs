//! mel catalogue

use crate::args::Args;
use crate::input;
use crate::output;
use crate::room;
use crate::trouble::Trouble;
use mooringelm::CATALOGUE_LIMIT;

pub fn run(args: &Args) -> Result<u8, Trouble> {
    let name = &args.operands[0];
    let out = output::place(args, "")?;
    let file = input::cbf(name)?;
    let mut bytes = room::bytes(CATALOGUE_LIMIT)?;
    let length = mooringelm::catalogue(&file, &mut bytes)
        .map_err(|refusal| Trouble::refusal(name, refusal))?;
    output::put(out, &bytes[..length], args)?;
    Ok(0)
}
