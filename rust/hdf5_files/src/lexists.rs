//! The time of a lookup by name, in one file: by the HDF5 library's H5Lexists, and by our find.

use std::ffi::{c_char, c_int, c_uint, c_void, CString};
use std::mem::transmute;
use std::path::Path;

use nuldrafon::{Field, Header};

use crate::bytes::{same, Fault};
use crate::list::Named;

/// Each name is looked up once in a round, in steps of this many names, from the last to the first
/// again; the first round of either is not counted.
const STRIDE: usize = 61_803;
const ROUNDS: usize = 7;

/// The hash in a record by name.
const HASH: Field = Field::new(0, 4);

/// The median nanoseconds of a lookup.
pub struct Times {
    pub lexists: f64,
    pub find: f64,
}

/// Looks every name of the group up by the library at this path and by ours, in turns. The library
/// compares the name with the one in the heap, which ours does not read.
pub fn time(
    library: &str,
    path: &Path,
    (bytes, header): (&[u8], &Header),
    names: &[Named],
) -> Result<Times, Fault> {
    let group = Group::open(library, path)?;
    let order = (0..names.len()).map(|i| &names[i * STRIDE % names.len()].name[..]);
    let order: Vec<&str> = order.collect();
    let terminated: Vec<CString> = order.iter().map(|name| text(name)).collect();
    let mut rounds = [Vec::new(), Vec::new()];
    for _ in 0..ROUNDS {
        let theirs = timed(|| terminated.iter().filter(|name| group.has(name)).count());
        let ours = timed(|| {
            order
                .iter()
                .filter(|name| finds(bytes, header, name))
                .count()
        });
        for (times, (found, nanoseconds)) in rounds.iter_mut().zip([theirs, ours]) {
            same("names found", found, names.len())?;
            times.push(nanoseconds / names.len() as f64);
        }
    }
    let [lexists, find] = rounds.map(|mut times| {
        times.remove(0);
        times.sort_by(f64::total_cmp);
        times[times.len() / 2]
    });
    Ok(Times { lexists, find })
}

fn finds(file: &[u8], header: &Header, name: &str) -> bool {
    let hash = nuldrafon::jenkins_lookup3(name.as_bytes());
    let found = header.find(file, HASH, hash.into());
    found.is_ok_and(|found| found.place.is_some())
}

extern "C" {
    fn dlopen(file: *const c_char, mode: c_int) -> *mut c_void;
    fn dlsym(library: *mut c_void, name: *const c_char) -> *mut c_void;
    fn clock_gettime(clock: c_int, time: &mut [i64; 2]) -> c_int;
}

const RTLD_NOW: c_int = 2;
const CLOCK_THREAD_CPUTIME_ID: c_int = 3;

/// What the work gives, and the nanoseconds that the thread ran for it.
fn timed<T>(work: impl FnOnce() -> T) -> (T, f64) {
    let now = || {
        let mut time = [0; 2];
        // SAFETY: on 64-bit Linux a timespec is two such numbers, seconds and nanoseconds.
        let failed = unsafe { clock_gettime(CLOCK_THREAD_CPUTIME_ID, &mut time) };
        assert_eq!(failed, 0, "the system tells a thread's time");
        time[0] as f64 * 1e9 + time[1] as f64
    };
    let begin = now();
    let given = work();
    (given, now() - begin)
}

/// As the library's headers declare, from version 1.10 on: what identifies an object, the property
/// list that stands for the defaults, and the flags of a file that is only read.
type Id = i64;
const DEFAULT: Id = 0;
const READ_ONLY: c_uint = 0;

type OpenFile = extern "C" fn(*const c_char, c_uint, Id) -> Id;
type OfName<T> = extern "C" fn(Id, *const c_char, Id) -> T;

/// The group of links in a file that the library has opened, and its function that tells of a name.
struct Group {
    id: Id,
    exists: OfName<c_int>,
}

impl Group {
    fn open(library: &str, path: &Path) -> Result<Self, Fault> {
        // SAFETY: the library is the one that made the file, and its start asks for nothing.
        let library = unsafe { dlopen(text(library).as_ptr(), RTLD_NOW) };
        let function = |name: &str| {
            // SAFETY: dlsym looks the name up, in whatever library.
            let found = unsafe { dlsym(library, text(name).as_ptr()) };
            match found.is_null() {
                true => Err(format!("the HDF5 library has no {name}")),
                false => Ok(found),
            }
        };
        // SAFETY: these are the library's own declarations.
        let (open_file, open_group, exists) = unsafe {
            (
                transmute::<*mut c_void, OpenFile>(function("H5Fopen")?),
                transmute::<*mut c_void, OfName<Id>>(function("H5Gopen2")?),
                transmute::<*mut c_void, OfName<c_int>>(function("H5Lexists")?),
            )
        };
        let file = open_file(text(&path.to_string_lossy()).as_ptr(), READ_ONLY, DEFAULT);
        let id = open_group(file, text("site").as_ptr(), DEFAULT);
        same("the library opens the group", id > 0, true)?;
        Ok(Self { id, exists })
    }

    fn has(&self, name: &CString) -> bool {
        (self.exists)(self.id, name.as_ptr(), DEFAULT) > 0
    }
}

fn text(text: &str) -> CString {
    CString::new(text).expect("no name or path has a zero byte")
}
