//! Records made by hand, for a test of a caller's own code: `new` takes the fields that have no default.

use crate::debug::DebugRecords;
use crate::{Arm64Code, Arm64Operation, Code, DamagedModule, DumpImage, DumpRegisters, DumpStack, End, Error, Failure};
use crate::{Frame, FunctionName, Image, ImageSource, NameSource, Operation, ResourceItem, ResourceName};
use alloc::vec::Vec;

macro_rules! by_hand {
    ($($name:ident $(<$life:lifetime>)? { $($field:ident: $type:ty),+; $($rest:ident),* })*) => { $(
        impl $(<$life>)? $name $(<$life>)? {
            /// One for a test of your own, whose other fields are empty until you set them.
            pub fn new($($field: $type),+) -> Self {
                $name { $($field,)+ $($rest: Default::default()),* }
            }
        }
    )* };
}

by_hand! {
    Arm64Code { operation: Arm64Operation; offset, length }
    Code { operation: Operation; code_offset }
    DamagedModule { error: Error; name, has_names }
    DumpImage<'a> { image: Image<'a>, source: ImageSource; }
    DumpStack { frames: Vec<Frame<DumpRegisters>>, end: End; }
    Failure { error: Error; offset, needed, value }
    FunctionName<'a> { source: NameSource; name, start, offset, is_nearest }
    ResourceItem<'a> { name: ResourceName<'a>; offset, is_directory }
}

/// None of the records.
impl Default for DebugRecords<'_> {
    fn default() -> Self {
        DebugRecords {
            symbol_key: Ok(None),
            pdb20: Ok(None),
            vc_features: Ok(None),
            debug_characteristics: Ok(None),
            repro: Ok(None),
            pogo: Ok(None),
            embedded_pdb: Ok(None),
            pdb_checksum: Ok(None),
        }
    }
}
