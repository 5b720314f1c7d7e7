//! Every state of the random register at every width, by both calls of the C interface, held to the Rust's register.

use grain::sys::{Random, grain_random_new, grain_random_next, grain_random_step};
use oracle::RandomRegister;

#[test]
fn every_state_and_width() {
    for bits in 0..=16 {
        for seed in 0..=u16::MAX {
            let mut due = RandomRegister::new(seed);
            let value = due.next(bits);
            // SAFETY: numbers alone are passed, and a register that nothing else holds.
            let (mut register, stepped, drawn);
            unsafe {
                register = grain_random_new(seed);
                stepped = grain_random_step(register, bits);
                drawn = grain_random_next(&mut register, bits);
            }
            assert_eq!((drawn.refusal, drawn.value), (0, value), "{seed}, {bits}");
            assert_eq!(
                (stepped.refusal, stepped.value),
                (0, value),
                "{seed}, {bits}"
            );
            assert_eq!(register.state, due.state, "{seed}, {bits}");
            assert_eq!(stepped.after.state, due.state, "{seed}, {bits}");
        }
    }
}

#[test]
fn more_bits_are_refused_at_every_state() {
    for bits in [17, 32, u32::MAX] {
        for state in 0..=u16::MAX {
            let mut register = Random { state };
            // SAFETY: numbers alone are passed, and a register that nothing else holds.
            let (stepped, drawn) = unsafe {
                (
                    grain_random_step(register, bits),
                    grain_random_next(&mut register, bits),
                )
            };
            assert_eq!((drawn.refusal, drawn.value), (9, 0));
            assert_eq!((stepped.refusal, stepped.value), (9, 0));
            assert_eq!((register.state, stepped.after.state), (state, state));
        }
    }
}
