//! What differs between systems: the width of a terminal, large pages, what an error of a file means, signals, permissions of files,
//! and the sign that work goes on. Where a system has no such thing, or none that the program takes there, it goes without.

pub use own::{
    ask_for_large_pages, columns_of_terminal, end_well_without_memory, has_colours, is_folder, is_loop, Progress,
};
pub use own::{ignore_file_size_limit, is_closed, move_new, permissions_of, private, Doomed};

#[cfg(unix)]
mod own {
    use indicatif::{ProgressBar, ProgressStyle};
    use std::ffi::{c_char, c_int, CString};
    use std::fs::{Metadata, OpenOptions, Permissions};
    use std::io;
    use std::os::unix::ffi::OsStrExt;
    use std::os::unix::fs::{OpenOptionsExt, PermissionsExt};
    use std::path::Path;
    use std::ptr::null_mut;
    use std::sync::atomic::{AtomicPtr, AtomicU8, Ordering};

    /// Whether a terminal shows colours without being asked to.
    pub fn has_colours() -> bool {
        true
    }

    /// The columns of the terminal that is standard output.
    pub fn columns_of_terminal() -> Option<usize> {
        let mut size = libc::winsize { ws_row: 0, ws_col: 0, ws_xpixel: 0, ws_ypixel: 0 };
        // SAFETY: the request writes a record of this type, which is lent for the call.
        let status = unsafe { libc::ioctl(libc::STDOUT_FILENO, libc::TIOCGWINSZ, &mut size) };
        (status == 0 && size.ws_col > 0).then_some(usize::from(size.ws_col))
    }

    /// A page of memory.
    const PAGE: usize = 1 << 12;
    /// A large page, which the system fills at once.
    const LARGE_PAGE: usize = 1 << 21;

    /// Asks the system for large pages in the memory that a vector has and does not use yet. It may give them to a program that
    /// asks for them alone. To fill many small pages takes longer than all else that is done with a large file.
    pub fn ask_for_large_pages(bytes: &mut Vec<u8>) {
        let room = bytes.spare_capacity_mut();
        let start = room.as_ptr().align_offset(PAGE);
        if room.len() < start.saturating_add(LARGE_PAGE) {
            return;
        }
        let room = &mut room[start..];
        // SAFETY: these are whole pages of the vector's own memory, and the advice changes nothing that is in them.
        unsafe { libc::madvise(room.as_mut_ptr().cast(), room.len() / PAGE * PAGE, libc::MADV_HUGEPAGE) };
    }

    extern "C" fn end(_: libc::c_int) {
        remove_doomed();
        // SAFETY: a handler of a signal may call it.
        unsafe { libc::_exit(crate::Status::FileError as libc::c_int) }
    }

    /// Rust ends a program whose memory ran out by `abort`, after a line that says so: then the status is that of an error of a file.
    pub fn end_well_without_memory() {
        let handler: extern "C" fn(libc::c_int) = end;
        // SAFETY: the handler is a function of this type, and ends the process.
        unsafe { libc::signal(libc::SIGABRT, handler as libc::sighandler_t) };
    }

    /// Whether links lead in a circle.
    pub fn is_loop(error: &io::Error) -> bool {
        error.raw_os_error() == Some(libc::ELOOP)
    }

    /// Whether a file was not read since it is a folder.
    pub fn is_folder(error: &io::Error, _: &Path) -> bool {
        error.raw_os_error() == Some(libc::EISDIR)
    }

    /// Which of the three standard streams were closed when the program started, a bit each. Rust opens `/dev/null` in their place
    /// before `main`, so that they are looked at before that.
    static CLOSED: AtomicU8 = AtomicU8::new(0);

    #[cfg(target_os = "linux")]
    #[used]
    #[link_section = ".init_array"]
    static BEFORE_MAIN: extern "C" fn() = {
        extern "C" fn look() {
            for number in 0..3 {
                // SAFETY: the request reads the flags of a descriptor, or fails where there is none.
                let is_closed = unsafe { libc::fcntl(number, libc::F_GETFD) } < 0;
                CLOSED.fetch_or(u8::from(is_closed) << number, Ordering::Relaxed);
            }
        }
        look
    };

    /// Whether a standard stream was closed when the program started.
    pub fn is_closed(number: u8) -> bool {
        CLOSED.load(Ordering::Relaxed) >> number & 1 == 1
    }

    /// A write past a limit is an error then, and no signal that ends the program.
    pub fn ignore_file_size_limit() {
        // SAFETY: no handler runs.
        unsafe { libc::signal(libc::SIGXFSZ, libc::SIG_IGN) };
    }

    /// Those of another file: who may read, write and execute it.
    pub fn permissions_of(file: &Metadata) -> Permissions {
        Permissions::from_mode(file.permissions().mode() & 0o777)
    }

    /// A new file that its owner alone may read and write, if it is private.
    pub fn private(options: &mut OpenOptions, is_private: bool) -> &mut OpenOptions {
        if is_private {
            options.mode(0o600)
        } else {
            options
        }
    }

    /// Moves a file to a name that must not exist.
    #[cfg(target_os = "linux")]
    pub fn move_new(from: &Path, to: &Path) -> io::Result<()> {
        let (from, to) = (CString::new(from.as_os_str().as_bytes())?, CString::new(to.as_os_str().as_bytes())?);
        let (here, flags) = (libc::AT_FDCWD, libc::RENAME_NOREPLACE);
        // SAFETY: both are texts that end with a zero, and live as long as the call.
        match unsafe { libc::syscall(libc::SYS_renameat2, here, from.as_ptr(), here, to.as_ptr(), flags) } {
            0 => Ok(()),
            _ => Err(io::Error::last_os_error()),
        }
    }

    #[cfg(not(target_os = "linux"))]
    pub fn move_new(_: &Path, _: &Path) -> io::Result<()> {
        Err(io::Error::new(io::ErrorKind::Unsupported, "the file system has no hard links"))
    }

    /// The path of the temporary file, which a signal that ends the program removes first.
    static DOOMED: AtomicPtr<c_char> = AtomicPtr::new(null_mut());

    /// The signals that end a program and are caught. `end` has that of `abort`; those of a crash end it as it is.
    const ENDS: [c_int; 10] = [
        libc::SIGHUP,
        libc::SIGINT,
        libc::SIGQUIT,
        libc::SIGTERM,
        libc::SIGXCPU,
        libc::SIGALRM,
        libc::SIGVTALRM,
        libc::SIGPROF,
        libc::SIGUSR1,
        libc::SIGUSR2,
    ];

    /// Removes the temporary file, in a handler.
    fn remove_doomed() {
        let path = DOOMED.swap(null_mut(), Ordering::SeqCst);
        if !path.is_null() {
            // SAFETY: it may be called in a handler, and the path is a text that nobody frees any more.
            unsafe { libc::unlink(path) };
        }
    }

    extern "C" fn remove_and_end(signal: c_int) {
        remove_doomed();
        // SAFETY: what is called may be called in a handler.
        unsafe {
            libc::signal(signal, libc::SIG_DFL);
            libc::raise(signal);
        }
    }

    /// A file that goes away if a signal ends the program, until this is dropped.
    pub struct Doomed(());

    impl Doomed {
        pub fn put(path: &Path) -> Doomed {
            if let Ok(path) = CString::new(path.as_os_str().as_bytes()) {
                DOOMED.store(path.into_raw(), Ordering::SeqCst);
                ENDS.into_iter().for_each(catch);
            }
            Doomed(())
        }
    }

    impl Drop for Doomed {
        fn drop(&mut self) {
            let path = DOOMED.swap(null_mut(), Ordering::SeqCst);
            if !path.is_null() {
                // SAFETY: `put` made it, and a handler that took it would have left none.
                drop(unsafe { CString::from_raw(path) });
            }
        }
    }

    /// Catches a signal, unless it is ignored, as after `nohup`.
    fn catch(signal: c_int) {
        let handler = remove_and_end as extern "C" fn(c_int);
        // SAFETY: the handler is a function that may run at any time.
        unsafe {
            if libc::signal(signal, handler as libc::sighandler_t) == libc::SIG_IGN {
                libc::signal(signal, libc::SIG_IGN);
            }
        }
    }

    /// A line on standard error that says how many files were read.
    pub struct Progress(ProgressBar);

    impl Progress {
        pub fn hidden() -> Progress {
            Progress(ProgressBar::hidden())
        }

        pub fn shown() -> Progress {
            let bar = ProgressBar::new_spinner();
            if let Ok(style) = ProgressStyle::with_template("{spinner} {pos} files, {per_sec}, {elapsed}") {
                bar.set_style(style);
            }
            Progress(bar)
        }

        pub fn add(&self, files: usize) {
            self.0.inc(files as u64);
        }

        pub fn end(self) {
            self.0.finish_and_clear();
        }
    }
}

#[cfg(not(unix))]
mod own {
    use std::fs::{self, Metadata, OpenOptions, Permissions};
    use std::io;
    use std::path::Path;

    pub fn is_closed(_: u8) -> bool {
        false
    }

    pub fn ignore_file_size_limit() {}

    pub fn permissions_of(file: &Metadata) -> Permissions {
        file.permissions()
    }

    pub fn private(options: &mut OpenOptions, _: bool) -> &mut OpenOptions {
        options
    }

    /// File systems without hard links have no call either that moves a file and replaces none.
    pub fn move_new(from: &Path, to: &Path) -> io::Result<()> {
        match to.symlink_metadata() {
            Ok(_) => Err(io::ErrorKind::AlreadyExists.into()),
            Err(_) => fs::rename(from, to),
        }
    }

    pub struct Doomed(());

    impl Doomed {
        pub fn put(_: &Path) -> Doomed {
            Doomed(())
        }
    }

    /// Consoles of Windows show colours to a program that asks them to, which this one does not.
    pub fn has_colours() -> bool {
        false
    }

    pub fn columns_of_terminal() -> Option<usize> {
        None
    }

    pub fn ask_for_large_pages(_: &mut Vec<u8>) {}

    pub fn end_well_without_memory() {}

    /// `ERROR_CANT_RESOLVE_FILENAME` of Windows.
    const CANT_RESOLVE_FILENAME: i32 = 1921;

    pub fn is_loop(error: &io::Error) -> bool {
        error.raw_os_error() == Some(CANT_RESOLVE_FILENAME)
    }

    /// Windows denies access to a folder that is opened as a file.
    pub fn is_folder(error: &io::Error, path: &Path) -> bool {
        error.kind() == io::ErrorKind::PermissionDenied && path.is_dir()
    }

    pub struct Progress;

    impl Progress {
        pub fn hidden() -> Progress {
            Progress
        }

        pub fn shown() -> Progress {
            Progress
        }

        pub fn add(&self, _: usize) {}

        pub fn end(self) {}
    }
}
