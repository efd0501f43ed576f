//! What an image asks of Windows to make attacks harder, by its headers, its load configuration and its debug data. Whether
//! Windows does it depends on its version and its settings, and on the process.
//! <https://learn.microsoft.com/windows/win32/debug/pe-format#dll-characteristics>

use pe_c::{Error, Image};
use serde::Serialize;

/// True, false, or null: where it does not apply, or the part that would say it is refused.
#[derive(Clone, Debug, Serialize)]
pub struct Hardening {
    /// It may be loaded at any address: `DYNAMIC_BASE`, and its relocations are there.
    pub aslr: bool,
    /// Addresses of 64 bits: `HIGH_ENTROPY_VA`, with `aslr`. Null of 32-bit images.
    pub high_entropy_aslr: Option<bool>,
    /// No memory is executed that is data: `NX_COMPAT`.
    pub dep: bool,
    /// Indirect calls are checked: `GUARD_CF`, and the load configuration says that the code does.
    pub cfg: Option<bool>,
    /// A shadow stack: `CET_COMPAT` of the extended DLL characteristics. Null of other machines than x86 and x64.
    pub cet: Option<bool>,
    /// The handlers of exceptions are in a table. Null of other machines than x86, and with `NO_SEH`, where there are none.
    pub safe_seh: Option<bool>,
    /// It is loaded only if its signature is valid: `FORCE_INTEGRITY`.
    pub force_integrity: bool,
    /// It has a certificate of PKCS #7. Whether that is valid is not verified.
    pub signed: Option<bool>,
    /// No section may be written and executed.
    pub no_writable_code: bool,
    /// What is not known, and the part that is refused. For people.
    #[serde(skip)]
    pub unknown: Vec<(&'static str, &'static str)>,
}

const RELOCS_STRIPPED: u16 = 1;
const HIGH_ENTROPY_VA: u16 = 0x20;
const DYNAMIC_BASE: u16 = 0x40;
const FORCE_INTEGRITY: u16 = 0x80;
const NX_COMPAT: u16 = 0x100;
const NO_SEH: u16 = 0x400;
const GUARD_CF: u16 = 0x4000;
/// `IMAGE_GUARD_CF_INSTRUMENTED`
const CF_INSTRUMENTED: u32 = 0x100;
/// `IMAGE_DLLCHARACTERISTICS_EX_CET_COMPAT`
const CET_COMPAT: u32 = 1;
const X86: u16 = 0x14C;
const X64: u16 = 0x8664;
/// `IMAGE_SCN_MEM_EXECUTE` and `IMAGE_SCN_MEM_WRITE`
const WRITABLE_CODE: u32 = 0xA000_0000;
/// `WIN_CERT_TYPE_PKCS_SIGNED_DATA`
const PKCS_SIGNED_DATA: u16 = 2;

const CFG: &str = "CFG";
const CET: &str = "CET";
const SAFE_SEH: &str = "SafeSEH";
const SIGNED: &str = "has a signature entry";

/// What a load configuration says: whether code checks indirect calls, and whether there is a table of handlers.
fn config_of(image: &Image<'_>) -> Result<(bool, bool), Error> {
    let Some(config) = image.load_config()? else { return Ok((false, false)) };
    let is_guarded = config.guard_flags.is_some_and(|flags| flags & CF_INSTRUMENTED != 0);
    Ok((is_guarded, config.se_handler_table.unwrap_or(0) != 0 && config.se_handler_count.unwrap_or(0) != 0))
}

/// Whether one of the certificates is a signature. What is refused does not count where another one is.
fn is_signed(image: &Image<'_>) -> Result<bool, Error> {
    let is_signature = |it: &pe_c::Certificate<'_>| it.kind == PKCS_SIGNED_DATA;
    match image.certificates().flatten().any(|it| is_signature(&it)) {
        true => Ok(true),
        false => image.certificates().find_map(Result::err).map_or(Ok(false), Err),
    }
}

pub fn of(image: &Image<'_>) -> Hardening {
    let info = image.info();
    let has = |flag| info.dll_characteristics & flag != 0;
    let (config, aslr) = (config_of(image), has(DYNAMIC_BASE) && info.characteristics & RELOCS_STRIPPED == 0);
    let mut unknown = Vec::new();
    let mut known = |name, part, found: Result<bool, Error>| found.map_err(|_| unknown.push((name, part))).ok();
    let mut of_config = |name, found| known(name, "load configuration", found);
    let cfg = if has(GUARD_CF) { of_config(CFG, config.map(|it| it.0)) } else { Some(false) };
    let has_seh = info.machine == X86 && !has(NO_SEH);
    let safe_seh = has_seh.then(|| of_config(SAFE_SEH, config.map(|it| it.1))).flatten();
    let extended = || image.debug_characteristics().map(|it| it.unwrap_or(0) & CET_COMPAT != 0);
    let cet = [X86, X64].contains(&info.machine).then(|| known(CET, "debug data", extended())).flatten();
    Hardening {
        aslr,
        high_entropy_aslr: (info.width == 64).then_some(aslr && has(HIGH_ENTROPY_VA)),
        dep: has(NX_COMPAT),
        cfg,
        cet,
        safe_seh,
        force_integrity: has(FORCE_INTEGRITY),
        signed: known(SIGNED, "certificates", is_signed(image)),
        no_writable_code: image.sections().iter().all(|it| it.characteristics & WRITABLE_CODE != WRITABLE_CODE),
        unknown,
    }
}

/// What a row says of a name.
pub const YES: &str = "yes";
pub const NO: &str = "no";
pub const UNKNOWN: &str = "not known";

impl Hardening {
    /// Says of what is not known which part is refused.
    pub fn said_of_unknown(&self) -> impl Iterator<Item = String> + '_ {
        self.unknown.iter().map(|(name, part)| format!("{part}: refused, so it is not known here: {name}"))
    }

    /// Each by its name, and what it is: `yes`, `no`, `not known` or `not applicable`.
    pub fn rows(&self) -> [(&'static str, &'static str); 9] {
        let rows = [
            ("ASLR", Some(self.aslr)),
            ("high-entropy ASLR", self.high_entropy_aslr),
            ("DEP", Some(self.dep)),
            (CFG, self.cfg),
            (CET, self.cet),
            (SAFE_SEH, self.safe_seh),
            ("force integrity", Some(self.force_integrity)),
            (SIGNED, self.signed),
            ("no writable code", Some(self.no_writable_code)),
        ];
        let is_unknown = |name| self.unknown.iter().any(|it| it.0 == name);
        rows.map(|(name, value)| match value {
            Some(true) => (name, YES),
            Some(false) => (name, NO),
            None if is_unknown(name) => (name, UNKNOWN),
            None => (name, "not applicable"),
        })
    }
}
