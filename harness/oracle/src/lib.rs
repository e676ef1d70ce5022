//! The Rust of the reference as an oracle: `ours` calls the port's exp, ln, powf and draws, `published` the platform's
//! functions and the draws in Rust, and so does `hoisted`, which builds a curve once. `build.rs` says what is patched.
pub mod case;
pub mod drawn;
pub mod native;
pub mod stubs;
pub mod trace;

#[allow(dead_code, unused, clippy::all)]
pub mod ours {
    include!(concat!(env!("OUT_DIR"), "/ours.rs"));
}

#[allow(dead_code, unused, clippy::all)]
pub mod published {
    include!(concat!(env!("OUT_DIR"), "/published.rs"));
}

#[allow(dead_code, unused, clippy::all)]
pub mod hoisted {
    include!(concat!(env!("OUT_DIR"), "/hoisted.rs"));
}

unsafe extern "C" {
    fn drill_exp(x: f32) -> f32;
    fn drill_ln(x: f32) -> f32;
    fn drill_powf(x: f32, y: f32) -> f32;
}

/// The port's functions as methods.
pub(crate) trait Elementary {
    fn drill_exp(self) -> f32;
    fn drill_ln(self) -> f32;
    fn drill_powf(self, y: f32) -> f32;
}

impl Elementary for f32 {
    fn drill_exp(self) -> f32 {
        unsafe { drill_exp(self) }
    }

    fn drill_ln(self) -> f32 {
        unsafe { drill_ln(self) }
    }

    fn drill_powf(self, y: f32) -> f32 {
        unsafe { drill_powf(self, y) }
    }
}
