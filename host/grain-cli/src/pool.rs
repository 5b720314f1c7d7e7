//! Pictures that are used again, so that the work on a long clip holds no more of them than that on a short one.

use crate::clip::Picture;
use grain::Shape;
use std::sync::{Mutex, PoisonError};

pub struct Pool {
    shape: Shape,
    spare: Mutex<Vec<Picture>>,
}

impl Pool {
    pub fn new(shape: Shape) -> Self {
        Pool {
            shape,
            spare: Mutex::default(),
        }
    }

    /// A picture with any samples.
    pub fn take(&self) -> Picture {
        let spare = self.lock().pop();
        spare.unwrap_or_else(|| Picture::blank(self.shape))
    }

    pub fn give(&self, picture: Picture) {
        self.lock().push(picture);
    }

    fn lock(&self) -> std::sync::MutexGuard<'_, Vec<Picture>> {
        self.spare.lock().unwrap_or_else(PoisonError::into_inner)
    }
}
