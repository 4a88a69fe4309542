//! The Rust built with lto=fat: a library that stands beside this program (see host/tools/fat), loaded into the same process.

use std::env;
use std::ffi::{CString, c_char, c_int, c_void};
use std::mem;
use std::time::Duration;

use oracle::state::State;
use oracle::timed::Run;

unsafe extern "C" {
    fn dlopen(name: *const c_char, mode: c_int) -> *mut c_void;
    fn dlsym(library: *mut c_void, name: *const c_char) -> *mut c_void;
}

/// Linux's number for a library whose names are all looked up as it is loaded.
const RTLD_NOW: c_int = 2;

/// What the library has: the image, which becomes the memory after so many steps, and the numbers of the end state.
type Function = unsafe extern "C" fn(*mut u8, u64, *mut u64) -> u64;

pub struct Fat(Function);

impl Fat {
    pub fn load() -> Result<Fat, String> {
        let own = env::current_exe().map_err(|fault| fault.to_string())?;
        let file = own.with_file_name("libfat.so");
        let missing = || format!("{}: it has no fat_run", file.display());
        let name = CString::new(file.as_os_str().as_encoded_bytes()).map_err(|_| missing())?;
        // Sound: both names end in NUL, and a library that is null is not asked.
        let function = unsafe {
            let library = dlopen(name.as_ptr(), RTLD_NOW);
            if library.is_null() {
                return Err(missing());
            }
            dlsym(library, c"fat_run".as_ptr())
        };
        if function.is_null() {
            return Err(missing());
        }
        // Sound: host/tools/fat declares it so.
        Ok(Fat(unsafe {
            mem::transmute::<*mut c_void, Function>(function)
        }))
    }

    /// So many steps of an image, as by `time_rust`.
    pub fn time(&self, image: &[u8], steps: u64) -> Result<Run, String> {
        let mut memory = image.to_vec();
        let mut end = [0; 7];
        // Sound: the image is whole, and both are this function's own.
        let time = unsafe { (self.0)(memory.as_mut_ptr(), steps, end.as_mut_ptr()) };
        if time == u64::MAX {
            return Err("the Rust with lto=fat made no step".into());
        }
        let [counter, accumulator, x, y, stack, status, cycles] = end;
        let state = State {
            counter: counter as u16,
            accumulator: accumulator as u8,
            x: x as u8,
            y: y as u8,
            stack: stack as u8,
            status: status as u8,
            cycles,
        };
        Ok((Duration::from_nanos(time), state, memory))
    }
}
