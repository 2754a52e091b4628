//! A plain second implementation of the lowering of `using`, and a generator of tree files, for
//! comparing with the ported pass.

pub mod generate;
pub mod reference;
