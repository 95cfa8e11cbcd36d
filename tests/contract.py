"""docs/openapi.yaml, as tests hold what is answered against it."""
from typing import Any

import jsonschema
import yaml

from tests.harness import ROOT

FILE = ROOT / "docs" / "openapi.yaml"
PAGE = yaml.safe_load(FILE.read_text())
SCHEMAS = PAGE["components"]["schemas"]
METHODS = ("get", "post")


def resolved(node: Any) -> Any:
    """A node of the page, or what its reference leads to."""
    while "$ref" in node:
        place = PAGE
        for part in node["$ref"][2:].split("/"):
            place = place[part]
        node = place
    return node


def operations() -> list[tuple[str, str, Any]]:
    """Each operation: its path, its method, and what is said of it."""
    paths = PAGE["paths"].items()
    return [(path, method, ways[method]) for path, ways in paths for method in METHODS if method in ways]


def examples_of(content: Any) -> list[Any]:
    """The examples of a body."""
    several = [example["value"] for example in content.get("examples", {}).values()]
    return several + ([content["example"]] if "example" in content else [])


def faults_of(schema: Any, value: Any) -> list[str]:
    """Why the value isn't one of the schema's. Schemas of OpenAPI 3.0 stand on the fourth draft of JSON Schema."""
    resolver = jsonschema.RefResolver.from_schema(PAGE)
    return [fault.message for fault in jsonschema.Draft4Validator(schema, resolver=resolver).iter_errors(value)]
