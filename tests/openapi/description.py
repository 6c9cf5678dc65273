"""An OpenAPI description, looked at by itself, and which messages and answers fit it."""

import copy
import json
import re

import jsonschema
import yaml

# Fields of a schema that say nothing, since no such field is known, would be passed over.
WORDS = {"$ref", "additionalProperties", "const", "dependentRequired", "description", "enum", "items", "maxItems",
         "maxLength", "maximum", "minimum", "oneOf", "pattern", "properties", "required", "type"}


def read(path):
    with open(path, encoding="utf-8") as it:
        return yaml.safe_load(it)


def parts(value, place=()):
    """Each value in a document, with its place."""
    yield place, value
    for key, it in value.items() if isinstance(value, dict) else enumerate(value) if isinstance(value, list) else ():
        yield from parts(it, (*place, key))


def found(document, reference):
    """What a reference names, or None."""
    value = document
    for it in reference.removeprefix("#/").split("/"):
        value = value.get(it) if isinstance(value, dict) else None
    return value


def is_schema(place):
    """Whether a schema stands at a place, or within one as one of its own schemas."""
    if place[:2] == ("components", "schemas"):
        inner = place[3:] if len(place) > 2 else None
    elif "schema" in place:
        inner = place[place.index("schema") + 1 :]
    else:
        return False
    while inner:
        if inner[0] in ("properties", "oneOf") and len(inner) > 1:
            inner = inner[2:]
        elif inner[0] == "items":
            inner = inner[1:]
        else:
            return False
    return inner is not None


def faults(document, form):
    """What is wrong with a description, one line each."""
    checker = jsonschema.Draft202012Validator(form)
    said = [f"{'/'.join(map(str, it.path))}: {it.message}" for it in checker.iter_errors(document)]
    if said:
        return said
    for place, value in parts(document):
        if place and place[-1] == "$ref" and found(document, value) is None:
            said.append(f"{'/'.join(map(str, place))}: there is no {value}")
        if is_schema(place) and isinstance(value, dict):
            said += [f"{'/'.join(map(str, place))}: {it} is unknown" for it in value.keys() - WORDS]
            try:
                jsonschema.Draft202012Validator.check_schema(value)
            except jsonschema.SchemaError as fault:
                said.append(f"{'/'.join(map(str, place))}: {fault.message}")
            missing = set(value.get("required", [])) - set(value.get("properties", {}))
            said += [f"{'/'.join(map(str, place))}: {it} is required and not described" for it in missing]
    ids = [operation["operationId"] for _, _, operation in Description(document).operations()]
    said += [f"{it} is twice" for it in {it for it in ids if ids.count(it) > 1}]
    for path, item in document["paths"].items():
        named = [found(document, it["$ref"])["name"] if "$ref" in it else it["name"] for it in item.get("parameters", [])]
        if sorted(named) != sorted(re.findall(r"\{(\w+)\}", path)):
            said.append(f"{path}: its parameters are {named}")
    used = {value for place, value in parts(document) if place and place[-1] == "$ref"}
    kept = {f"#/components/{kind}/{name}" for kind, all_of in document.get("components", {}).items() for name in all_of}
    said += [f"nothing uses {it}" for it in sorted(kept - used)]
    return said


class Description:
    """What a description says of messages and answers."""

    def __init__(self, document):
        self.document = document
        self.checkers = {}

    def operations(self):
        for path, item in self.document["paths"].items():
            for method in ("get", "post"):
                if method in item:
                    yield path, method, item[method]

    def whole(self, value):
        return found(self.document, value["$ref"]) if "$ref" in value else value

    def fits(self, schema, value):
        """Why a value isn't of a schema, or None."""
        key = json.dumps(schema, sort_keys=True)
        if key not in self.checkers:
            self.checkers[key] = jsonschema.Draft202012Validator({**schema, "components": self.document["components"]})
        fault = next(self.checkers[key].iter_errors(value), None)
        return fault and f"{fault.message[:200]}"

    def route(self, method, path):
        """The path and the operation of a message, or None where there is none: a number in a path has no leading 0."""
        for known, item in self.document["paths"].items():
            if method.lower() not in item or not self.is_path(known, item, path):
                continue
            return known, item[method.lower()]
        return None

    def is_path(self, known, item, path):
        values = re.fullmatch(re.sub(r"\{(\w+)\}", r"(?P<\1>[^/]+)", known), path)
        if not values:
            return False
        for it in map(self.whole, item["parameters"]):
            text = values[it["name"]]
            value = int(text) if re.fullmatch(r"[1-9]\d*", text) else text
            if self.fits(it["schema"], value):
                return False
        return True

    def body_fault(self, operation, body):
        """Why a body isn't one of an operation, or None; of one that has none, any is."""
        if "requestBody" not in operation:
            return None
        given = self.whole(operation["requestBody"])
        (kind, content), = given["content"].items()
        if kind == "application/json":
            try:
                value = json.loads(body)
            except ValueError:
                return "it is no JSON"
        else:
            value = body.decode("utf-8", "replace")
        return self.fits(content["schema"], value)

    def answer_fault(self, operation, code, kind, body):
        """Why an answer isn't one of an operation, or None."""
        if str(code) not in operation["responses"]:
            return f"{code} isn't described"
        content = self.whole(operation["responses"][str(code)])["content"]
        if kind not in content:
            return f"{kind} isn't described"
        value = json.loads(body) if kind == "application/json" else body.decode()
        return self.fits(content[kind]["schema"], value)

    def refusals(self, operation):
        """The names of the schemas of an operation's refusals."""
        if "409" not in operation["responses"]:
            return []
        schema = operation["responses"]["409"]["content"]["application/json"]["schema"]
        return [it["$ref"].rpartition("/")[2] for it in schema["oneOf"]]


def changed(document, place, value):
    """A copy of a document with another value at a place, or with none there."""
    made = copy.deepcopy(document)
    holder = made
    for it in place[:-1]:
        holder = holder[it]
    if value is None:
        del holder[place[-1]]
    else:
        holder[place[-1]] = value
    return made
