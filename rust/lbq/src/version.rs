/// The number of the interface that this crate is written for: `LBQ_VERSION` of `include/lbq.h`, to which the build
/// holds it. A change of the calls, of the records or of the answers is a new number. [`Head`](crate::Head) and
/// [`Block`](crate::Block) carry none: who stores a line beyond a run stores this number beside it.
pub const VERSION: u32 = 1;
