use crate::refusal::accepted;
use crate::{Refusal, sys};

/// The grain seed of a frame: the low 16 bits of hint × 0x9e37 + 0x51ed.
///
/// ```
/// assert_eq!([0, 1, 2].map(grain::grain_seed_for), [20973, 61476, 36443]);
/// ```
pub fn grain_seed_for(hint: u32) -> u16 {
    // SAFETY: a number alone is passed.
    unsafe { sys::grain_seed_for(hint) }
}

/// The random register of AV1's film grain (7.18.3.2).
///
/// ```
/// let mut register = grain::RandomRegister::new(1);
/// assert_eq!(register.next(11)?, 1024);
/// assert_eq!(register.state, 32768);
/// assert_eq!(register.next(17), Err(grain::Refusal::RegisterBits));
/// assert_eq!(register.state, 32768);
/// # Ok::<(), grain::Refusal>(())
/// ```
#[derive(Debug, Clone, Copy, PartialEq, Eq)]
pub struct RandomRegister {
    /// The sixteen bits that it holds.
    pub state: u16,
}

impl RandomRegister {
    /// The register that holds the seed.
    pub const fn new(seed: u16) -> Self {
        Self { state: seed }
    }

    /// Steps the register and gives its top `bits` bits, of which there are at most 16.
    pub fn next(&mut self, bits: u32) -> Result<u32, Refusal> {
        let mut register = sys::Random { state: self.state };
        // SAFETY: the pointer is to a register that nothing else holds.
        let drawn = unsafe { sys::grain_random_next(&mut register, bits) };
        self.state = register.state;
        accepted(drawn.refusal).map(|()| drawn.value)
    }
}
