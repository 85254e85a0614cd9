//! A store of LMDB in a folder of its own, which goes with it, and one read transaction over it.
use std::ffi::{c_char, c_int, c_uint, c_void, CString};
use std::path::PathBuf;
use std::ptr::{null, null_mut};

const NOSYNC: c_uint = 0x1_0000;
const RDONLY: c_uint = 0x2_0000;
const NOTFOUND: c_int = -30798;
const MAP_SIZE: usize = 1 << 28;

#[repr(C)]
struct Val {
    size: usize,
    data: *const c_void,
}

extern "C" {
    fn mdb_env_create(env: *mut *mut c_void) -> c_int;
    fn mdb_env_set_mapsize(env: *mut c_void, size: usize) -> c_int;
    fn mdb_env_open(env: *mut c_void, path: *const c_char, flags: c_uint, mode: c_uint) -> c_int;
    fn mdb_env_close(env: *mut c_void);
    fn mdb_txn_begin(env: *mut c_void, parent: *mut c_void, flags: c_uint, txn: *mut *mut c_void) -> c_int;
    fn mdb_txn_commit(txn: *mut c_void) -> c_int;
    fn mdb_txn_abort(txn: *mut c_void);
    fn mdb_dbi_open(txn: *mut c_void, name: *const c_char, flags: c_uint, dbi: *mut c_uint) -> c_int;
    fn mdb_put(txn: *mut c_void, dbi: c_uint, key: *mut Val, data: *mut Val, flags: c_uint) -> c_int;
    fn mdb_get(txn: *mut c_void, dbi: c_uint, key: *mut Val, data: *mut Val) -> c_int;
}

fn val(bytes: &[u8]) -> Val {
    Val { size: bytes.len(), data: bytes.as_ptr().cast() }
}

/// The answer of a call that has no reason to fail.
fn must(code: c_int) {
    assert_eq!(code, 0, "LMDB");
}

/// Removed with all that is in it, after a panic too.
struct Folder(PathBuf);

impl Drop for Folder {
    fn drop(&mut self) {
        let _ = std::fs::remove_dir_all(&self.0);
    }
}

pub struct Lmdb {
    env: *mut c_void,
    txn: *mut c_void,
    dbi: c_uint,
    _folder: Folder,
}

impl Lmdb {
    /// A store of these pairs.
    pub fn of<'a>(pairs: impl Iterator<Item = (&'a [u8], &'a [u8])>) -> Lmdb {
        let folder = Folder(std::env::temp_dir().join(format!("chronicle-map-bench-{}", std::process::id())));
        std::fs::create_dir_all(&folder.0).expect("a temporary folder");
        let path = CString::new(folder.0.to_str().expect("a path in UTF-8")).expect("a path without 0");
        let (mut env, mut dbi) = (null_mut(), 0);
        // SAFETY: each out pointer is of a variable here, and the environment is open from `mdb_env_open` on.
        unsafe {
            must(mdb_env_create(&mut env));
            must(mdb_env_set_mapsize(env, MAP_SIZE));
            must(mdb_env_open(env, path.as_ptr(), NOSYNC, 0o600));
            let txn = begin(env, 0);
            must(mdb_dbi_open(txn, null(), 0, &mut dbi));
            for (key, record) in pairs {
                must(mdb_put(txn, dbi, &mut val(key), &mut val(record), 0));
            }
            must(mdb_txn_commit(txn));
            Lmdb { env, txn: begin(env, RDONLY), dbi, _folder: folder }
        }
    }

    /// The record under a key, in LMDB's own memory.
    pub fn get(&self, key: &[u8]) -> Option<&[u8]> {
        let mut found = val(&[]);
        // SAFETY: the transaction is open as long as `self` is there, and nothing is written in that time, so what is found stays.
        unsafe {
            match mdb_get(self.txn, self.dbi, &mut val(key), &mut found) {
                0 => Some(std::slice::from_raw_parts(found.data.cast(), found.size)),
                NOTFOUND => None,
                code => panic!("LMDB: {code}"),
            }
        }
    }
}

/// # Safety
/// The environment is open.
unsafe fn begin(env: *mut c_void, flags: c_uint) -> *mut c_void {
    let mut txn = null_mut();
    must(mdb_txn_begin(env, null_mut(), flags, &mut txn));
    txn
}

impl Drop for Lmdb {
    fn drop(&mut self) {
        // SAFETY: both are open, and are not used after this.
        unsafe {
            mdb_txn_abort(self.txn);
            mdb_env_close(self.env);
        }
    }
}
