"""docs/openapi.yaml: valid by a validator, with the routes and refusals of the code, and with examples that fit."""
import copy
import json
import pathlib
import re
import subprocess
from collections.abc import Iterator
from typing import Any

import pytest
from conftest import ROOT
from tests.contract import FILE, METHODS, PAGE, SCHEMAS, examples_of, faults_of, operations, resolved

# Debian's libjson-validator-perl has the schema of OpenAPI 3.0 with it.
LOOK = 'print "$_\\n" for @{JSON::Validator->new->schema(shift)->schema->errors}'
VALIDATOR = ["perl", "-MJSON::Validator", "-e", LOOK]


def route(path: str) -> str:
    """A path whatever its parameters are called."""
    return re.sub(r"{\w+}|\b(ORDER|LOT|N)\b", "{}", path)


def bodies() -> Iterator[tuple[str, Any]]:
    """Each body of the page, by the words on where it stands."""
    for path, method, operation in operations():
        for name, body in {"the request": operation.get("requestBody", {}), **operation["responses"]}.items():
            for content in resolved(body).get("content", {}).values():
                yield f"{method} {path}, {name}", content


def sources() -> list[str]:
    """The code's files, which may move from crate to crate."""
    return [source.read_text() for source in sorted((ROOT / "crates").glob("*/src/**/*.rt"))]


def told_of(file: pathlib.Path) -> list[str]:
    done = subprocess.run([*VALIDATOR, file], capture_output=True, text=True, check=True)
    return done.stdout.splitlines()


def test_the_validator_finds_nothing() -> None:
    assert told_of(FILE) == []


@pytest.mark.parametrize(
    "path, broken",
    [
        (("paths", "/orders", "get", "responses"), {}),
        (("components", "parameters", "order", "in"), "body"),
        (("components", "responses", "Away", "description"), None),
        (("info", "title"), None),
    ],
)
def test_the_validator_finds_what_is_wrong(tmp_path: pathlib.Path, path: tuple[str, ...], broken: Any) -> None:
    page = copy.deepcopy(PAGE)
    place = page
    for part in path[:-1]:
        place = place[part]
    place[path[-1]] = broken
    (tmp_path / "openapi.json").write_text(json.dumps(page))
    assert told_of(tmp_path / "openapi.json")


def test_the_routes_are_those_of_the_code() -> None:
    office = [(path, method) for path, method, operation in operations() if operation.get("x-told-by") != "site"]
    others = [(path, method) for path, method, _ in operations() if (path, method) not in office]
    assert others == [("/companion", "get")]
    row = r'pattern: "(.*?)",\s+endpoint: Endpoint {\s+parts: Parts::\w+,\s+get: (\w+).*?,\s+post: (\w+)'
    routes = [route for text in sources() for route in re.findall(row, text)]
    code = {(method, route(path)) for path, *asks in routes for method, ask in zip(METHODS, asks) if ask == "Some"}
    assert code and code == {(method, route(path)) for path, method in office}


def test_what_the_site_sends_alone_is_in_its_settings() -> None:
    settings = (ROOT / "packaging" / "nginx.conf").read_text()
    of_site = [path for path, _, operation in operations() if operation.get("x-told-by") == "site"]
    assert [path for path in of_site if f"location = {path} {{" not in settings] == []


def test_an_operation_is_named_by_what_it_does() -> None:
    names = [operation["operationId"] for _, _, operation in operations()]
    assert len(set(names)) == len(names)
    assert all(re.fullmatch("(get|list|place|cancel|release|reject|trace)[A-Z][a-z]+", name) for name in names)


def test_the_routes_are_those_of_the_page_beside_it() -> None:
    rows = re.findall(r"^\|`(/[\w/]+)`\|(.*?)\|(.*?)\|$", (ROOT / "docs" / "http.md").read_text(), re.M)
    page = {(method, route(path)) for path, *marks in rows for method, mark in zip(METHODS, marks) if mark.strip()}
    assert page == {(method, route(path)) for path, method, _ in operations()}


def test_the_refusals_are_those_of_the_code() -> None:
    code = {word: int(number) for text in sources() for word, number in re.findall(r"\bRefusal::(\w+) => (\d+),", text)}
    words = SCHEMAS["Refusal"]["properties"]["error"]["enum"]
    assert code == {word: number for number, word in enumerate(words, 1)}
    for word in set(code) & set(SCHEMAS):
        fits = [other for other in code if not faults_of(SCHEMAS[word], {"code": code[other], "error": other})]
        assert fits == [word]


@pytest.mark.parametrize("where, content", bodies())
def test_each_body_has_examples_that_fit(where: str, content: Any) -> None:
    examples = examples_of(content)
    assert examples and [fault for example in examples for fault in faults_of(content["schema"], example)] == []


def test_each_schema_and_each_field_is_described() -> None:
    for name, schema in SCHEMAS.items():
        fields = {"": schema, **schema.get("properties", {})}
        assert [field for field, node in fields.items() if "description" not in resolved(node)] == [], name


def test_a_client_elsewhere_finds_the_server() -> None:
    first = PAGE["servers"][0]["url"]
    assert first == "/"
    assert any("127.0.0.1" not in server["url"] and server["url"].startswith("https://") for server in PAGE["servers"])


def test_a_new_word_of_an_error_is_one() -> None:
    assert faults_of(SCHEMAS["Error"], {"error": "NewWord"}) == []
    assert faults_of(SCHEMAS["NoRoute"], {"error": "NewWord"}) and faults_of(SCHEMAS["Error"], {})


@pytest.mark.parametrize("path, method, operation", operations())
def test_each_request_may_be_told_what_the_site_tells_by_itself(path: str, method: str, operation: Any) -> None:
    responses = operation["responses"].items()
    site = {status for status, response in responses if resolved(response).get("x-told-by") == "site"}
    assert site == {"429", "502", "504", "default"}
