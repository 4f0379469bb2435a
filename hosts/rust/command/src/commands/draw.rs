//! `bliss-box draw`: draws the noise of one signature.

use bliss_box::{OwnedDraw, Secret};
use clap::Args;

use crate::drawing::{self, DrawOptions, NoiseOptions};
use crate::ending::{Failure, Status};
use crate::output::{self, Delivery};
use crate::program::SEE_FILES;

/// Draws the noise of one signature.
///
/// Draws 2N samples of noise and prints them, one a line. What was counted goes to standard error.
///
/// A full draw, with 2N samples accepted, ends with status 0. A spent one, with fewer after L attempts, ends with status 3 and
/// prints no samples.
#[derive(Args)]
#[command(after_help = SEE_FILES)]
pub struct Draw {
    #[command(flatten)]
    noise: NoiseOptions,

    /// Shows the noise beside the counts that are expected, in place of its values
    ///
    /// Expected is the noise of the built-in CDT of the deviation, whatever CDT is given.
    #[arg(long)]
    picture: bool,

    #[command(flatten)]
    options: DrawOptions,
}

impl Draw {
    pub fn run(&self) -> Result<Status, Failure> {
        let session = self.noise.open()?;
        let mut drawing = self.options.drawing(&session)?;
        let mut lists = self.options.lists()?;
        let drawn = drawing.draw(session)?;
        let (printed, list, status) = match &drawn {
            OwnedDraw::Full(noise) => {
                (drawing::printed(noise.samples(), noise.deviation(), self.picture), noise.list(), Status::Served)
            }
            OwnedDraw::Spent(spent) => (Secret::zeroed(0), &spent.list[..], Status::Unserved),
        };
        lists.add(list)?;
        lists.deliver(Delivery::of(printed))?;
        output::say(&drawing::summary(&drawn));
        Ok(status)
    }
}
