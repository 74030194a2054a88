//! Lists the root's subkeys of one hive, again and again: by the walk in Rattle, by `plain.rs`, and by libraries of others, all in this
//! process. Only the listing is timed.   peers HIVE TURNS [hivex=LIBRARY] [bfio=LIBRARY regf=LIBRARY]
#[allow(dead_code)]
mod plain;

use std::ffi::{c_char, c_int, c_void, CString};
use std::hint::black_box;
use std::ptr::null_mut;
use std::time::Instant;

extern "C" {
    fn speed_walk(image: *const u8, len: usize, base: u32, count: u32, list: u32, budget: u32, out: *mut u32, places: usize, told: *mut [u64; 5]) -> u32;
    fn dlopen(path: *const c_char, flags: c_int) -> *mut c_void;
    fn dlsym(library: *mut c_void, name: *const c_char) -> *mut c_void;
    fn free(p: *mut c_void);
}

type Handle = *mut c_void;

/// A library, kept open.
struct Library(Handle);

impl Library {
    fn open(path: &str) -> Library {
        let path = CString::new(path).unwrap();
        let library = unsafe { dlopen(path.as_ptr(), 0x102) }; // now, and for the libraries that come after it
        assert!(!library.is_null(), "{path:?} does not open");
        Library(library)
    }
    /// A function by its name, of the type that the caller gives it.
    fn get<F: Copy>(&self, name: &str) -> F {
        let f = unsafe { dlsym(self.0, CString::new(name).unwrap().as_ptr()) };
        assert!(!f.is_null() && size_of::<F>() == size_of::<Handle>(), "{name}");
        unsafe { std::mem::transmute_copy(&f) }
    }
}

/// Calls a listing so many times, holds what it lists to what is wanted, and prints its line.
fn row(name: &str, turns: usize, wanted: &[u32], mut listing: impl FnMut(&mut Vec<u32>) -> f64) {
    let mut listed = Vec::with_capacity(wanted.len());
    let mut times: Vec<f64> = (0..turns)
        .map(|_| {
            listed.clear();
            listing(&mut listed)
        })
        .collect();
    assert!(listed == wanted, "{name} lists others");
    times.sort_by(f64::total_cmp);
    println!("{name}\t{}\t{}", times[0], times[turns / 2]);
}

/// How long it takes, in nanoseconds, and what it gives.
fn timed<T>(f: impl FnOnce() -> T) -> (f64, T) {
    let t = Instant::now();
    let x = black_box(f());
    (t.elapsed().as_secs_f64() * 1e9, x)
}

fn hivex(library: &Library, path: &CString, root: usize, turns: usize, wanted: &[u32]) {
    let open: extern "C" fn(*const c_char, c_int) -> Handle = library.get("hivex_open");
    let children: extern "C" fn(Handle, usize) -> *mut usize = library.get("hivex_node_children");
    let h = open(path.as_ptr(), 0);
    assert!(!h.is_null(), "hivex does not open it");
    row("hivex_node_children", turns, wanted, |listed| {
        let (time, all) = timed(|| children(h, root));
        let mut at = all;
        while !all.is_null() && unsafe { *at } != 0 {
            listed.push(unsafe { *at } as u32);
            at = unsafe { at.add(1) };
        }
        unsafe { free(all as Handle) };
        time
    });
}

fn regf(library: &Library, path: &CString, turns: usize, wanted: &[u32]) {
    type Out = *mut Handle;
    let new: extern "C" fn(Out, Out) -> c_int = library.get("libregf_file_initialize");
    let open: extern "C" fn(Handle, *const c_char, c_int, Out) -> c_int = library.get("libregf_file_open");
    let root_key: extern "C" fn(Handle, Out, Out) -> c_int = library.get("libregf_file_get_root_key");
    let number: extern "C" fn(Handle, *mut c_int, Out) -> c_int = library.get("libregf_key_get_number_of_sub_keys");
    let sub_key: extern "C" fn(Handle, c_int, Out, Out) -> c_int = library.get("libregf_key_get_sub_key");
    let offset: extern "C" fn(Handle, *mut i64, Out) -> c_int = library.get("libregf_key_get_offset");
    let drop_key: extern "C" fn(Out, Out) -> c_int = library.get("libregf_key_free");
    let (mut file, mut root, none) = (null_mut(), null_mut(), null_mut());
    assert!(new(&mut file, none) == 1 && open(file, path.as_ptr(), 1, none) == 1, "libregf does not open it");
    assert!(root_key(file, &mut root, none) == 1);
    let all = |listed: &mut Vec<u32>, root| {
        let mut n = 0;
        assert!(number(root, &mut n, none) == 1);
        for i in 0..n {
            let (mut key, mut at) = (null_mut(), 0);
            assert!(sub_key(root, i, &mut key, none) == 1 && offset(key, &mut at, none) == 1);
            listed.push(at as u32 - 4); // it counts from behind the size word
            drop_key(&mut key, none);
        }
    };
    row("libregf_key_get_sub_key, for each", turns, wanted, |listed| timed(|| all(listed, root)).0);
    row("libregf_file_get_root_key alone", turns, wanted, |listed| {
        let mut again = null_mut();
        let time = timed(|| assert!(root_key(file, &mut again, none) == 1)).0;
        listed.extend(wanted); // it gives no offsets
        drop_key(&mut again, none);
        time
    });
}

fn main() {
    let words: Vec<String> = std::env::args().skip(1).collect();
    let given = |name: &str| words.iter().find_map(|w| w.strip_prefix(name)).map(Library::open);
    let (path, turns) = (CString::new(words[0].as_str()).unwrap(), words[1].parse().unwrap());
    let image = std::fs::read(&words[0]).unwrap();
    let word = |at: usize| u32::from_le_bytes(image[at..at + 4].try_into().unwrap());
    let root = word(36) as usize + 4096;
    let (count, list) = (word(root + 24), word(root + 32));
    let mut wanted = vec![0; count as usize];
    let counts = plain::sub_keys(&image, 4096, count, list, 65_536, &mut wanted).ok().unwrap();
    let mut out = wanted.clone();
    println!("{} {} {} {}", counts.kept, counts.lists, counts.entries, wanted.iter().map(|x| *x as u64).sum::<u64>());
    row("Rattle", turns, &wanted, |listed| {
        let (image, out, mut told) = (black_box(&image[..]), black_box(&mut out[..]), [0; 5]);
        out.fill(0);
        let (time, number) = timed(|| unsafe { speed_walk(image.as_ptr(), image.len(), 4096, count, list, 65_536, out.as_mut_ptr(), out.len(), &mut told) });
        assert_eq!(number, 0);
        listed.extend_from_slice(out);
        time
    });
    row("Rust", turns, &wanted, |listed| {
        let (image, out) = (black_box(&image[..]), black_box(&mut out[..]));
        out.fill(0);
        let (time, told) = timed(|| plain::sub_keys(image, 4096, count, list, 65_536, out).is_ok());
        assert!(told);
        listed.extend_from_slice(out);
        time
    });
    if let Some(library) = given("hivex=") {
        hivex(&library, &path, root, turns, &wanted);
    }
    if let (Some(_), Some(library)) = (given("bfio="), given("regf=")) {
        regf(&library, &path, turns.div_ceil(20), &wanted);
    }
}
