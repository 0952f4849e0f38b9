//! The proved engine's functions. This is the only file with `unsafe`.

/// What the proved engine offers. Each call answers with the first refusal that holds, 0 for none, and a refused one changes no
/// byte of any buffer. 8 is a file that does not load, or bytes to write that are no model or not a valid one; 10 bytes that are no
/// configuration or not a valid one; 6 a buffer too short.
pub trait Engine {
    /// The loader's 1 to 5 plus 256 * block, 6; the model's bytes go to `room`.
    fn load(&self, file: &[u8], room: &mut [u8]) -> u16;
    /// 8, 6, else 256 * the length of the file; the file of the model's bytes goes to the front of `room`.
    fn write(&self, model: &[u8], room: &mut [u8]) -> u32;
    /// 8, 6; the fresh start goes to `config`.
    fn fresh(&self, file: &[u8], config: &mut [u8]) -> u8;
    /// One coded command: 8, 9, 10, 6, 11 to 20; `config` is replaced, Reserve's answer goes to `values`, else nine 0.
    fn step(&self, file: &[u8], config: &mut [u8], command: &[u8], values: &mut [u8]) -> u8;
    /// A whole tape, judged once: 8, 10, 6; `config` is replaced, four numbers a command go to `lines`.
    fn run(&self, file: &[u8], config: &mut [u8], tape: &[u8], lines: &mut [u32]) -> u8;
    /// A whole tape by one public step each, refused ones passed over: 8, 10; `config` is replaced.
    fn walk(&self, file: &[u8], config: &mut [u8], tape: &[u8]) -> u8;
    /// 1 yes, 0 no, or 8, 11.
    fn shared(&self, file: &[u8], owner: u8) -> u8;
}

/// How to get the proved engine where it is missing.
#[cfg(not(proved))]
pub const MISSING: &str = "\
this desk was built without the proved engine. On x86-64 make its archive with 'rt lib' in crates/exported of the repository
(it is looked for at ../crates/exported/out/libexported.a, or where the environment variable DESK_PROVED says), then build
the desk again: 'cargo build --release'. The archive is for Linux on x86-64 and links into no other program";

/// The proved engine, or how to get it.
#[cfg(not(proved))]
pub fn engine() -> Result<Box<dyn Engine>, crate::args::Stop> {
    crate::args::usage(MISSING.to_string())
}

/// The proved engine.
#[cfg(proved)]
pub fn engine() -> Result<Box<dyn Engine>, crate::args::Stop> {
    Ok(Box::new(library::Library))
}

#[cfg(proved)]
mod library {
    extern "C" {
        fn zs_load(file: *const u8, n: usize, room: *mut u8, room_n: usize) -> u16;
        fn zs_write(model: *const u8, model_n: usize, room: *mut u8, room_n: usize) -> u32;
        fn zs_fresh(file: *const u8, n: usize, config: *mut u8, config_n: usize) -> u8;
        fn zs_step(
            file: *const u8,
            n: usize,
            config: *mut u8,
            config_n: usize,
            command: *const u8,
            command_n: usize,
            values: *mut u8,
            values_n: usize,
        ) -> u8;
        fn zs_run(
            file: *const u8,
            n: usize,
            config: *mut u8,
            config_n: usize,
            tape: *const u8,
            tape_n: usize,
            lines: *mut u32,
            lines_n: usize,
        ) -> u8;
        fn zs_walk(
            file: *const u8,
            n: usize,
            config: *mut u8,
            config_n: usize,
            tape: *const u8,
            tape_n: usize,
        ) -> u8;
        fn zs_shared(file: *const u8, n: usize, owner: u8) -> u8;
    }

    /// The engine in the archive.
    pub struct Library;

    // Each call passes the pointer and length of slices that live until it returns; those written to are not shared.
    impl super::Engine for Library {
        fn load(&self, file: &[u8], room: &mut [u8]) -> u16 {
            unsafe { zs_load(file.as_ptr(), file.len(), room.as_mut_ptr(), room.len()) }
        }

        fn write(&self, model: &[u8], room: &mut [u8]) -> u32 {
            unsafe { zs_write(model.as_ptr(), model.len(), room.as_mut_ptr(), room.len()) }
        }

        fn fresh(&self, file: &[u8], config: &mut [u8]) -> u8 {
            unsafe { zs_fresh(file.as_ptr(), file.len(), config.as_mut_ptr(), config.len()) }
        }

        fn step(&self, file: &[u8], config: &mut [u8], command: &[u8], values: &mut [u8]) -> u8 {
            unsafe {
                zs_step(
                    file.as_ptr(),
                    file.len(),
                    config.as_mut_ptr(),
                    config.len(),
                    command.as_ptr(),
                    command.len(),
                    values.as_mut_ptr(),
                    values.len(),
                )
            }
        }

        fn run(&self, file: &[u8], config: &mut [u8], tape: &[u8], lines: &mut [u32]) -> u8 {
            unsafe {
                zs_run(
                    file.as_ptr(),
                    file.len(),
                    config.as_mut_ptr(),
                    config.len(),
                    tape.as_ptr(),
                    tape.len(),
                    lines.as_mut_ptr(),
                    lines.len(),
                )
            }
        }

        fn walk(&self, file: &[u8], config: &mut [u8], tape: &[u8]) -> u8 {
            unsafe {
                zs_walk(
                    file.as_ptr(),
                    file.len(),
                    config.as_mut_ptr(),
                    config.len(),
                    tape.as_ptr(),
                    tape.len(),
                )
            }
        }

        fn shared(&self, file: &[u8], owner: u8) -> u8 {
            unsafe { zs_shared(file.as_ptr(), file.len(), owner) }
        }
    }
}
