//! The registry of entity instances, as far as evaluate.rs asks for it.

use std::collections::BTreeMap;

use super::types::{DerivedUnit, UnitDerivationError};

/// Entity types by instance id.
#[derive(Default)]
pub struct EntityRegistry {
    types: BTreeMap<String, String>,
}

impl EntityRegistry {
    pub fn bind_supplied(
        &mut self,
        entity_type: impl Into<String>,
        id: impl Into<String>,
        _evidence: impl Into<String>,
    ) -> Result<(), UnitDerivationError> {
        self.insert(entity_type.into(), id.into())
    }

    pub fn insert_derived(&mut self, unit: &DerivedUnit) -> Result<(), UnitDerivationError> {
        self.insert(unit.entity_type.clone(), unit.id.clone())
    }

    fn insert(&mut self, incoming: String, id: String) -> Result<(), UnitDerivationError> {
        let existing = self.types.entry(id.clone()).or_insert_with(|| incoming.clone());
        if *existing == incoming {
            return Ok(());
        }
        Err(UnitDerivationError::EntityCollision {
            id,
            existing_type: existing.clone(),
            incoming_type: incoming,
        })
    }
}
