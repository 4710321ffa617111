include!("../../unit_derivation/types.rs");
