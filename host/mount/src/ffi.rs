//! The operations for `fuse.c`, and its two functions.

#[cfg(libfuse)]
pub use with_libfuse::{host_log, run};
#[cfg(not(libfuse))]
pub use without::{host_log, run};

/// How a mount ended. A build with libfuse3 has no use for the last, one without it for the others.
#[allow(dead_code)]
pub enum Ended {
    Unmounted,
    NotMounted,
    BrokeOff,
    /// The program was built without libfuse3.
    Without,
}

#[cfg(not(libfuse))]
mod without {
    use super::Ended;
    use crate::mount::Mount;
    use std::path::Path;

    pub fn host_log(line: &str, _lesser: bool) {
        eprintln!("gdos-mount: {line}");
    }

    pub fn run(_mount: &mut Mount, _folder: &Path, _options: &str, _change: bool, _foreground: bool) -> Ended {
        Ended::Without
    }
}

#[cfg(libfuse)]
mod with_libfuse {
    use super::Ended;
    use crate::errno::Errno;
    use crate::mount::{Attributes, Mount, Room, Which};
    use std::ffi::{c_char, c_int, c_void, CStr, CString};
    use std::os::unix::ffi::OsStrExt;
    use std::path::Path;

    extern "C" {
        fn gdos_fuse_run(
            mount: *mut c_void,
            folder: *const c_char,
            options: *const c_char,
            change: bool,
            foreground: bool,
        ) -> c_int;
        fn gdos_errno(which: c_int) -> c_int;
        fn gdos_syslog(lesser: bool, line: *const c_char);
    }

    /// A line for the host's log.
    pub fn host_log(line: &str, lesser: bool) {
        let line = CString::new(line.replace('\0', "?")).unwrap_or_default();
        // SAFETY: the string is live and ends with a zero.
        unsafe { gdos_syslog(lesser, line.as_ptr()) }
    }

    /// Mounts a disk at a folder and works until it is unmounted.
    pub fn run(mount: &mut Mount, folder: &Path, options: &str, change: bool, foreground: bool) -> Ended {
        let (Ok(folder), Ok(options)) = (CString::new(folder.as_os_str().as_bytes()), CString::new(options)) else {
            return Ended::NotMounted;
        };
        let mount: *mut Mount = mount;
        // SAFETY: the strings and the mount live until this returns. libfuse's loop has one thread, so that the operations below
        // have the mount one after the other, and this function does not touch it meanwhile.
        match unsafe { gdos_fuse_run(mount.cast(), folder.as_ptr(), options.as_ptr(), change, foreground) } {
            0 => Ended::Unmounted,
            1 => Ended::NotMounted,
            _ => Ended::BrokeOff,
        }
    }

    /// The mount that `run` handed over.
    ///
    /// # Safety
    /// The pointer is `run`'s, and no other operation is under way.
    unsafe fn of<'a>(mount: *mut c_void) -> &'a mut Mount {
        &mut *mount.cast::<Mount>()
    }

    /// A string of libfuse's; none is empty.
    ///
    /// # Safety
    /// Null, or a live string that ends with a zero.
    unsafe fn text<'a>(text: *const c_char) -> &'a [u8] {
        match text.is_null() {
            true => &[],
            false => CStr::from_ptr(text).to_bytes(),
        }
    }

    /// The file of an operation: the open one, if there is one.
    ///
    /// # Safety
    /// As `text`.
    unsafe fn which<'a>(path: *const c_char, file: u64) -> Which<'a> {
        match file {
            0 => Which::Path(text(path)),
            file => Which::Open(file),
        }
    }

    fn answer(done: Result<usize, Errno>) -> c_int {
        match done {
            // A read or a write has at most a few hundred thousand bytes.
            Ok(done) => c_int::try_from(done).unwrap_or(c_int::MAX),
            // SAFETY: the function takes any error of the list.
            Err(errno) => -unsafe { gdos_errno(errno as c_int) },
        }
    }

    fn done(done: Result<(), Errno>) -> c_int {
        answer(done.map(|()| 0))
    }

    /// Puts an answer where it is wanted.
    ///
    /// # Safety
    /// The place is good for one of these.
    unsafe fn put<T>(place: *mut T, told: Result<T, Errno>) -> c_int {
        done(told.map(|told| place.write(told)))
    }

    /// An extended attribute, as the host wants it: its length alone where there is no room, or its bytes.
    ///
    /// # Safety
    /// The place is good for that many bytes.
    unsafe fn extended(place: *mut c_char, length: usize, told: Result<String, Errno>) -> c_int {
        answer(told.and_then(|told| {
            if length > 0 {
                if told.len() > length {
                    return Err(Errno::ERANGE);
                }
                std::ptr::copy_nonoverlapping(told.as_ptr(), place.cast(), told.len());
            }
            Ok(told.len())
        }))
    }

    // Safety, for all of them: libfuse lends strings, buffers and places for the length of the call, and makes one call at a time.

    #[no_mangle]
    unsafe extern "C" fn gdos_mount_getattr(
        mount: *mut c_void,
        path: *const c_char,
        file: u64,
        to: *mut Attributes,
    ) -> c_int {
        put(to, of(mount).getattr(which(path, file)))
    }

    #[no_mangle]
    unsafe extern "C" fn gdos_mount_readdir(
        mount: *mut c_void,
        to: *mut c_void,
        each: unsafe extern "C" fn(*mut c_void, *const c_char, *const Attributes),
    ) -> c_int {
        let listed = of(mount).readdir().map(|files| {
            for (name, attributes) in files {
                // A name on the disk has no zero in it.
                let name = CString::new(name).unwrap_or_default();
                each(to, name.as_ptr(), &attributes);
            }
        });
        done(listed)
    }

    #[no_mangle]
    unsafe extern "C" fn gdos_mount_open(mount: *mut c_void, path: *const c_char, cut: bool, to: *mut u64) -> c_int {
        put(to, of(mount).open(text(path), cut))
    }

    #[no_mangle]
    unsafe extern "C" fn gdos_mount_create(
        mount: *mut c_void,
        path: *const c_char,
        only_new: bool,
        cut: bool,
        to: *mut u64,
    ) -> c_int {
        put(to, of(mount).create(text(path), only_new, cut))
    }

    #[no_mangle]
    unsafe extern "C" fn gdos_mount_read(
        mount: *mut c_void,
        file: u64,
        buffer: *mut c_char,
        length: usize,
        offset: u64,
    ) -> c_int {
        answer(of(mount).read(file, std::slice::from_raw_parts_mut(buffer.cast(), length), offset))
    }

    #[no_mangle]
    unsafe extern "C" fn gdos_mount_write(
        mount: *mut c_void,
        file: u64,
        buffer: *const c_char,
        length: usize,
        offset: u64,
        append: bool,
    ) -> c_int {
        answer(of(mount).write(file, std::slice::from_raw_parts(buffer.cast(), length), offset, append))
    }

    #[no_mangle]
    unsafe extern "C" fn gdos_mount_truncate(mount: *mut c_void, path: *const c_char, file: u64, size: u64) -> c_int {
        done(of(mount).truncate(which(path, file), size))
    }

    #[no_mangle]
    unsafe extern "C" fn gdos_mount_unlink(mount: *mut c_void, path: *const c_char) -> c_int {
        done(of(mount).unlink(text(path)))
    }

    #[no_mangle]
    unsafe extern "C" fn gdos_mount_statfs(mount: *mut c_void, to: *mut Room) -> c_int {
        put(to, of(mount).statfs())
    }

    #[no_mangle]
    unsafe extern "C" fn gdos_mount_getxattr(
        mount: *mut c_void,
        path: *const c_char,
        name: *const c_char,
        value: *mut c_char,
        length: usize,
    ) -> c_int {
        extended(value, length, of(mount).getxattr(text(path), text(name)))
    }

    #[no_mangle]
    unsafe extern "C" fn gdos_mount_listxattr(
        mount: *mut c_void,
        path: *const c_char,
        list: *mut c_char,
        length: usize,
    ) -> c_int {
        extended(list, length, of(mount).listxattr(text(path)))
    }

    #[no_mangle]
    unsafe extern "C" fn gdos_mount_allot(mount: *mut c_void, file: u64, end: u64) -> c_int {
        done(of(mount).allot(file, end))
    }

    #[no_mangle]
    unsafe extern "C" fn gdos_mount_save(mount: *mut c_void) -> c_int {
        done(of(mount).save())
    }

    #[no_mangle]
    unsafe extern "C" fn gdos_mount_release(mount: *mut c_void, file: u64) {
        of(mount).release(file);
    }

    #[no_mangle]
    unsafe extern "C" fn gdos_mount_mode(mount: *mut c_void, path: *const c_char, file: u64, mode: u32) -> c_int {
        done(of(mount).mode(which(path, file), mode))
    }

    #[no_mangle]
    unsafe extern "C" fn gdos_mount_time(
        mount: *mut c_void,
        path: *const c_char,
        file: u64,
        now: bool,
        time: i64,
    ) -> c_int {
        done(of(mount).time(which(path, file), now, time))
    }

    #[no_mangle]
    unsafe extern "C" fn gdos_mount_no_call(
        mount: *mut c_void,
        operation: *const c_char,
        path: *const c_char,
        not_permitted: bool,
    ) -> c_int {
        let errno = if not_permitted { Errno::EPERM } else { Errno::EOPNOTSUPP };
        let operation = String::from_utf8_lossy(text(operation));
        done(Err(of(mount).no_call(&operation, text(path), errno)))
    }
}
