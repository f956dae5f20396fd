//! The stand-in for zune_core that is measured: the plainest that zune-hdr 0.5.2 runs over, with nothing kept beside it.

#[path = "../../compare/oracle/zune-core/src/bit_depth.rs"]
pub mod bit_depth;
pub mod bytestream;
#[path = "../../compare/oracle/zune-core/src/colorspace.rs"]
pub mod colorspace;
#[path = "../../compare/oracle/zune-core/src/log.rs"]
pub mod log;
#[path = "../../compare/oracle/zune-core/src/options.rs"]
pub mod options;
