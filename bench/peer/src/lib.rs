//! What docs/FORMATS.md asks of events, entities and times, on the values of serde_json.
pub mod checks;
pub mod time;
