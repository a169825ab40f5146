//! The number of the calls, and a reference to the archive's function of that number: no other archive links.

use crate::ffi;

macro_rules! numbered {
    ($number:literal) => {
        /// DILBRETH_VERSION of the header, which says where else the number stands.
        pub const VERSION: u32 = $number;

        extern "C" {
            #[link_name = concat!("dilbreth_version_", $number)]
            fn dilbreth_version_numbered() -> u32;
        }
    };
}

numbered!(10);

#[used]
static LINKED: unsafe extern "C" fn() -> u32 = dilbreth_version_numbered;

/// The number that the archive was built with: `VERSION`.
pub fn version() -> u32 {
    unsafe { ffi::dilbreth_version() }
}
