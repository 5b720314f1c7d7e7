//! The active rectangle of a reel: the one that is given, what black bars leave, or the whole frame.

mod bars;
mod fault;

use crate::reel::Reel;
use anyhow::{Result, bail};
use bars::{Bright, LOOK};
use fault::fault;
use grain::{Rectangle, Refusal};
use serde::Serialize;

/// What the command line asks for.
#[derive(Debug, Clone, Copy)]
pub enum Wanted {
    Auto,
    Given(Rectangle),
}

/// The rectangle, and how it came about. Field names are those of the JSON report.
#[derive(Debug, Clone, Copy, Serialize)]
pub struct Active {
    #[serde(flatten, with = "Fields")]
    rectangle: Rectangle,
    how: How,
}

#[derive(Serialize)]
#[serde(remote = "Rectangle")]
struct Fields {
    left: usize,
    top: usize,
    width: usize,
    height: usize,
}

#[derive(Debug, Clone, Copy, Serialize)]
#[serde(rename_all = "snake_case")]
enum How {
    /// The whole frame, since nothing was asked for.
    Whole,
    Given,
    /// Between black bars.
    Found,
    /// The whole frame, since no bars were found.
    NoBars,
    /// The whole frame, since too little is bright for bars to be told.
    TooDark,
}

impl Active {
    /// Settles the rectangle of a reel, before its first frame is worked on.
    pub fn settle(wanted: Option<Wanted>, reel: &mut Reel) -> Result<Self> {
        let shape = reel.shape();
        let whole = shape.active;
        let (rectangle, how) = match wanted {
            None => (whole, How::Whole),
            Some(Wanted::Given(given)) => match fault(shape.with_active(given)) {
                None => (given, How::Given),
                Some(cause) => bail!(
                    "{}: --active {},{},{},{} {cause} (question {})",
                    reel.clip.name,
                    given.left,
                    given.top,
                    given.width,
                    given.height,
                    Refusal::ActiveRectangle.number()
                ),
            },
            Some(Wanted::Auto) => {
                let mut bright = Bright::none(shape);
                reel.look(LOOK, |luma| bright.look(luma))?;
                match bright.between() {
                    None => (whole, How::TooDark),
                    Some(found) if found == whole => (whole, How::NoBars),
                    Some(found) => (found, How::Found),
                }
            }
        };
        reel.activate(rectangle);
        Ok(Active { rectangle, how })
    }

    /// The rectangle, where it may be less than the whole frame.
    pub fn part(&self) -> Option<Rectangle> {
        match self.how {
            How::Given | How::Found => Some(self.rectangle),
            How::Whole | How::NoBars | How::TooDark => None,
        }
    }

    /// The rectangle and how it came about, in words; `None` where nothing was asked for.
    pub fn words(&self) -> Option<String> {
        let rectangle = self.rectangle;
        match self.how {
            How::Whole => None,
            How::Given => Some(format!("{rectangle}, as given")),
            How::Found => Some(format!("{rectangle}, between black bars")),
            How::NoBars => Some("the whole frame; no black bars were found".to_string()),
            How::TooDark => {
                Some("the whole frame; the first frames are too dark to show bars".to_string())
            }
        }
    }
}
