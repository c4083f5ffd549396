"""What the keys of a plant file may hold, by schema/plant.schema.json."""
import copy, json, os

from speaking.texts import HERE, grouped

SCHEMA = os.path.join(os.path.dirname(HERE), "schema", "plant.schema.json")


def schema():
    with open(SCHEMA, encoding="utf-8") as text:
        return json.load(text)


def narrowed(keys, rest):
    """Keys without those that a version rules out, and with its narrower ranges."""
    found = {}
    for key, what in keys.items():
        less = rest.get("properties", {}).get(key, {})
        if less is not False:
            found[key] = {**what, **{it: less[it] for it in less if it in ("minimum", "maximum", "maxItems")}}
    return found


def tables(version):
    """For each table the keys that a version knows and those that it needs: all that is no 2 or 3 is read as version 1."""
    whole = copy.deepcopy(schema())
    found = {"top": (whole["properties"], whole["required"])}
    found.update({name: (what["properties"], what["required"]) for name, what in whole["$defs"].items()})
    of_second, of_third = (it["then"] for it in reversed(whole["allOf"]))
    for rest in [of_third] * (version != 3) + [of_second] * (version not in (2, 3)):
        found = less_of(found, rest)
    return found


def less_of(tables, rest):
    """The tables without what a version has not."""
    found = {"top": (narrowed(tables["top"][0], rest), tables["top"][1])}
    for name, (keys, required) in tables.items():
        if name != "top":
            less = (rest["properties"].get(name) or {}).get("items", {})
            found[name] = (narrowed(keys, less), required + less.get("required", []))
    return found


def known(table, version):
    """The keys of a table that a version knows, in their order."""
    return list(tables(version)[table][0])


def of(table, key, version):
    """What a key may hold, or nothing."""
    return tables(version)[table][0].get(key)


def wanted(what):
    """The type that a key holds, in words."""
    if what is None:
        return "something else"
    if "examples" in what:
        return f"a date with a time of day, in whole seconds and of no zone, such as {what['examples'][0]}"
    if what.get("type") == "array":
        return "an array of tables" if "$ref" in what["items"] else "a list of whole numbers"
    return "a whole number" if what.get("type") == "integer" or "enum" in what else "a text in quotes"


def allowed(what):
    """The range of a whole number, or of those of a list."""
    what = what.get("items", what) if what else {}
    if "enum" in what:
        return " or ".join(str(it) for it in what["enum"])
    return f"{grouped(what['minimum'])} to {grouped(what['maximum'])}" if "minimum" in what else ""
