//! Names as their sources have them. Images have those of C++ and Rust mangled: Itanium's way of C++, as gcc and clang for mingw-w64
//! write it, and both of Rust's. Other names, those of MSVC's C++ among them, stay as they are.

use std::fmt::{self, Write};

/// How many bytes a name has at most that is shown in this way: one that repeats its parts may be far longer than its mangled form.
const MOST: usize = 4096;

/// A text that ends with an error where it is too long.
struct Bounded(String);

impl Write for Bounded {
    fn write_str(&mut self, text: &str) -> fmt::Result {
        if MOST - self.0.len() < text.len() {
            return Err(fmt::Error);
        }
        self.0.push_str(text);
        Ok(())
    }
}

/// The name as its source has it. `None` where it is no mangled name.
pub fn demangled(name: &str) -> Option<String> {
    let mut text = Bounded(String::new());
    if let Ok(name) = rustc_demangle::try_demangle(name) {
        // Without the hash at its end.
        write!(text, "{name:#}").ok()?;
        return Some(text.0);
    }
    // On x86 each name has an underscore before it.
    let name = if name.starts_with("__Z") { &name[1..] } else { name };
    let name = Some(name).filter(|it| it.starts_with("_Z"))?;
    let symbol = cpp_demangle::Symbol::new(name).ok()?;
    symbol.structured_demangle(&mut text, &cpp_demangle::DemangleOptions::new()).ok()?;
    Some(text.0)
}

/// A name as its source has it, where it is mangled, and as the file has it.
pub fn both_names(name: Option<&str>) -> (Option<String>, Option<String>) {
    let raw_name = name.map(str::to_string);
    (raw_name.as_deref().map(|it| demangled(it).unwrap_or_else(|| it.to_string())), raw_name)
}

#[cfg(test)]
mod tests {
    use super::*;

    /// What `c++filt` (binutils 2.40) and `rustfilt` (0.2.1) print.
    #[test]
    fn names_of_sources() {
        assert_eq!(demangled("_ZN3geo5clampEii").as_deref(), Some("geo::clamp(int, int)"));
        assert_eq!(demangled("__ZN3geo5clampEii").as_deref(), Some("geo::clamp(int, int)"));
        assert_eq!(
            demangled("_ZN4core3fmt5Write9write_fmt17h0123456789abcdefE").as_deref(),
            Some("core::fmt::Write::write_fmt")
        );
        assert_eq!(demangled("_RNvC6_123foo3bar").as_deref(), Some("123foo::bar"));
        for other in ["main", "?clamp@geo@@YAHHH@Z", "_Z", "", "_ZN3geo"] {
            assert_eq!(demangled(other), None, "{other}");
        }
    }

    /// Each of these types is a function of two of the one before: the whole has 2^30 parts.
    #[test]
    fn names_that_grow() {
        let mut name = "_Z1fPFviiE".to_string();
        for last in "0123456789ABCDEFGHIJKLMNOPQRST".chars() {
            name += &format!("PFvS{last}_S{last}_E");
        }
        assert_eq!(demangled(&name), None);
    }
}
