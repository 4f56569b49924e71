"""Checks a SARIF file as far as Debian has the standard: the classes of python3-sarif-python-om, which are made of its schema, know which members an
object may have and which it has to have; the words that a member can have are here, from the standard's text (2.1.0, sections 3.14, 3.27, 3.35, 3.49).

usage: check_sarif.py FILE
Prints a line for each fault, then how many objects were looked at. Status 1 where there is a fault.
"""
import json
import sys

import attr
import sarif_om

CLASSES = {
    "runs": "Run", "tool": "Tool", "driver": "ToolComponent", "rules": "ReportingDescriptor", "shortDescription": "MultiformatMessageString",
    "defaultConfiguration": "ReportingConfiguration", "results": "Result", "message": "Message", "locations": "Location", "relatedLocations": "Location",
    "physicalLocation": "PhysicalLocation", "artifactLocation": "ArtifactLocation", "region": "Region", "suppressions": "Suppression",
}
WORDS = {
    "level": {"none", "note", "warning", "error"}, "kind": {"inSource", "external"}, "version": {"2.1.0"},
    "columnKind": {"utf16CodeUnits", "unicodeCodePoints"},
}
POSITIVE = {"startLine", "startColumn"}
NOT_NEGATIVE = {"ruleIndex", "id"}
faults = []
objects = 0


def check_value(name, value, path):
    if name in WORDS and value not in WORDS[name]:
        faults.append(f"{path}: {value} is none of {sorted(WORDS[name])}")
    if name in POSITIVE and not (type(value) is int and value > 0):
        faults.append(f"{path}: {value} is no positive number")
    if name in NOT_NEGATIVE and type(value) is not str and not (type(value) is int and value >= 0):
        faults.append(f"{path}: {value} is no number from 0 on")
    if name in {"uri", "text", "name", "ruleId", "justification"} and not (type(value) is str and value):
        faults.append(f"{path}: {value!r} is no text")
    if name == "uri" and any(sign in value for sign in ' "<>\\^`{|}'):
        faults.append(f"{path}: {value!r} is no URI")


def check_object(value, class_name, path):
    global objects
    objects += 1
    fields = {one.metadata["schema_property_name"]: one for one in attr.fields(getattr(sarif_om, class_name))}
    for name in fields:
        if fields[name].default is attr.NOTHING and name not in value:
            faults.append(f"{path}: {name} is missing in {class_name}")
    for name, member in value.items():
        here = f"{path}.{name}"
        if name not in fields:
            faults.append(f"{here}: {class_name} has no such member")
        elif isinstance(member, list):
            for number, one in enumerate(member):
                check_object(one, CLASSES[name], f"{here}[{number}]")
        elif isinstance(member, dict) and name in CLASSES:
            check_object(member, CLASSES[name], here)
        elif isinstance(member, dict):
            if not all(type(one) is str for one in member.values()):
                faults.append(f"{here}: not all members are texts")
        else:
            check_value(name, member, here)


def check_rules(log):
    for run in log["runs"]:
        rules = run["tool"]["driver"]["rules"]
        if len({rule["id"] for rule in rules}) != len(rules):
            faults.append("two rules have one id")
        for number, one in enumerate(run["results"]):
            if rules[one["ruleIndex"]]["id"] != one["ruleId"]:
                faults.append(f"result {number}: its rule is not the one at its index")


def main():
    with open(sys.argv[1], encoding="utf-8") as file:
        log = json.load(file)
    check_object(log, "SarifLog", "$")
    check_rules(log)
    print("\n".join([*faults, f"{objects} objects"]))
    return 1 if faults else 0


if __name__ == "__main__":
    sys.exit(main())
