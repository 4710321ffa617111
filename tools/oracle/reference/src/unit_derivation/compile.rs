include!("../../unit_derivation/compile.rs");
