//! The first frame of the crashed thread in a module that is not of Windows. A module is of Windows where its path in the dump's
//! list of modules is below the Windows directory, the folder whose `System32` has the `ntdll.dll` of that list. A reader looks
//! there first; what the cause is, no rule says.

use super::told::{Outside, Thread};

/// The file by which the Windows directory is known: each process of Windows has it.
const NTDLL: &str = r"\System32\ntdll.dll";

/// The Windows directory, by the paths of modules.
fn windows_of(paths: &[Option<String>]) -> Option<&str> {
    let found = paths.iter().flatten().find_map(|path| {
        let (start, end) = path.split_at_checked(path.len().checked_sub(NTDLL.len())?)?;
        end.eq_ignore_ascii_case(NTDLL).then_some(start)
    });
    found.filter(|it| !it.is_empty())
}

/// Whether a path is below a folder, in upper or lower case.
fn is_below(path: &str, folder: &str) -> bool {
    let parts = path.split_at_checked(folder.len());
    parts.is_some_and(|(start, rest)| start.eq_ignore_ascii_case(folder) && rest.starts_with('\\'))
}

/// The frame, by the paths of modules. Frames in no module are skipped. None where there is no such frame, the Windows directory is
/// not known, or a frame before it is in a module without a path.
pub fn first_of(threads: &[Thread], paths: &[Option<String>]) -> Option<Outside> {
    let thread = threads.iter().find(|it| it.is_crashed)?;
    let windows = windows_of(paths)?;
    for (index, frame) in thread.frames.iter().enumerate() {
        let Some(module) = frame.module_index else { continue };
        if !is_below(paths.get(module)?.as_deref()?, windows) {
            return Some(Outside { thread_id: thread.id, frame: index, windows_directory: windows.to_string() });
        }
    }
    None
}
