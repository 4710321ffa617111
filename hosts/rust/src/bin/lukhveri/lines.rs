//! Lines as JSON.

use lukhveri::Line;
use lukhveri::names::Names;

use crate::json::Json;

/// All fields of a line, with the person's name.
pub fn json(line: &Line, names: &Names) -> Json {
    Json::object([
        ("person", line.person.into()),
        ("name", names.find("person", line.person).into()),
        ("kind", line.kind.number().into()),
        ("role", line.role.number().into()),
        ("block", Json::list(line.block)),
        ("open_facts", Json::list(line.open_facts())),
        ("open_decisions", Json::list(line.open_decisions())),
        ("citations", Json::list(line.citations())),
    ])
}
