#!/usr/bin/env python3
"""Says what is wrong with a SARIF log, and else its results, a line for each thing that a reader sees.

  sarif_check.py LOG [--brief]

A log is held to the schema beside this, which has the main members of SARIF 2.1.0 and what code scanning wants of a result, and to
what ties members together.
"""
import json
import re
import sys
from pathlib import Path

SCHEMA = json.loads((Path(__file__).parent / "sarif.schema.json").read_text())
TYPES = {"object": dict, "array": list, "string": str, "integer": int}
KNOWN = """$comment $ref type required additionalProperties properties definitions items minItems maxItems uniqueItems enum
    minimum maximum minLength pattern""".split()


def wrong(of, schema, at="log"):
    """The faults of a value by the part of JSON Schema that this one uses."""
    while "$ref" in schema:
        schema = SCHEMA["definitions"][schema["$ref"].rsplit("/", 1)[1]]
    assert set(schema) <= set(KNOWN), schema
    if "enum" in schema and of not in schema["enum"]:
        yield f"{at}: {of!r} is none of {schema['enum']}"
    if "type" in schema and (not isinstance(of, TYPES[schema["type"]]) or isinstance(of, bool)):
        yield f"{at}: no {schema['type']}"
    elif isinstance(of, dict):
        yield from (f"{at}: no {key}" for key in schema.get("required", ()) if key not in of)
        for key, value in of.items():
            part = schema.get("properties", {}).get(key, schema.get("additionalProperties", {}))
            if part is False:
                yield f"{at}: {key} isn't known"
            else:
                yield from wrong(value, part, f"{at}.{key}")
    elif isinstance(of, list):
        if not schema.get("minItems", 0) <= len(of) <= schema.get("maxItems", len(of)):
            yield f"{at}: {len(of)} items"
        if schema.get("uniqueItems") and len({json.dumps(item) for item in of}) < len(of):
            yield f"{at}: an item twice"
        for number, item in enumerate(of):
            yield from wrong(item, schema.get("items", {}), f"{at}[{number}]")
    elif isinstance(of, int):
        if not schema.get("minimum", of) <= of <= schema.get("maximum", of):
            yield f"{at}: {of}"
    elif isinstance(of, str):
        if len(of) < schema.get("minLength", 0) or not re.search(schema.get("pattern", ""), of):
            yield f"{at}: {of!r}"


def also_wrong(run):
    """What ties members together: rules by their numbers, bases by their names, and one order over the threads of a flow."""
    rules = [rule["id"] for rule in run["tool"]["driver"]["rules"]]
    for number, result in enumerate(run["results"]):
        if rules[result["ruleIndex"]] != result["ruleId"]:
            yield f"result {number}: another rule by its number"
        for flow in result.get("codeFlows", ()):
            orders = [[place["executionOrder"] for place in thread["locations"]] for thread in flow["threadFlows"]]
            if any(order != sorted(order) for order in orders) or len(set(sum(orders, []))) < len(sum(orders, [])):
                yield f"result {number}: no order"
            if len({thread["id"] for thread in flow["threadFlows"]}) < len(flow["threadFlows"]):
                yield f"result {number}: a thread twice"
    bases = set(re.findall(r'"uriBaseId": "([^"]*)"', json.dumps(run))) - set(run.get("originalUriBaseIds", ()))
    yield from (f"no base {base}" for base in bases)


def place(location):
    """Where a location is: its base, if it has one, its path, line and column."""
    of = location["physicalLocation"]
    artifact, region = of["artifactLocation"], of["region"]
    base = artifact.get("uriBaseId", "")
    column = f":{region['startColumn']}" if "startColumn" in region else ""
    return f"{base}{'/' if base else ''}{artifact['uri']}:{region['startLine']}{column}"


def told(result):
    yield f"{result['level']} {result['ruleId']} {place(result['locations'][0])}"
    yield "  " + result["message"]["text"]
    yield from (f"  in {of['name']}" for of in result["locations"][0].get("logicalLocations", ()))
    yield from (f"  also {place(of)}: {of['message']['text']}" for of in result.get("relatedLocations", ()))
    for flow in result.get("codeFlows", ()):
        for thread in flow["threadFlows"]:
            for of in thread["locations"]:
                order, depth, weight = of["executionOrder"], of["nestingLevel"], of["importance"]
                yield f"  {thread['id']} {order} {depth} {weight} {place(of['location'])}"


def main(path, brief=""):
    with open(path, encoding="utf-8") as log:
        log = json.load(log)
    faults = list(wrong(log, SCHEMA)) or list(also_wrong(log["runs"][0]))
    results = log["runs"][0]["results"] if not faults else []
    for line in faults[:20] or [f"{len(results)} results"] * bool(brief) or [line for result in results for line in told(result)]:
        print(line)
    return bool(faults)


if __name__ == "__main__":
    sys.exit(main(*sys.argv[1:]))
