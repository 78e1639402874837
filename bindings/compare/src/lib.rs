//! The same inputs through a library and through the model, and all that comes back compared.

#[cfg(feature = "archive")]
pub mod archive;
pub mod flawed;
pub mod generate;
pub mod input;
pub mod logs;
pub mod run;
pub mod shrink;
pub mod tell;
