"""Whether JSON is as a JSON Schema says: the words of JSON Schema that vectors/schema.json has, and no others."""
import re

TYPES = {"object": dict, "array": list, "string": str, "integer": int, "boolean": bool, "null": type(None)}
NOTES = {"$schema", "$defs", "title", "description"}


class Schema:
    """A schema, with the definitions that it cites."""

    def __init__(self, schema):
        self.schema, self.definitions = schema, schema["$defs"]

    def fault(self, value):
        """What is wrong with the value, or None."""
        return self.fault_of(value, self.schema, "$")

    def fault_of(self, value, schema, at):
        for word, said in schema.items():
            if word not in NOTES:
                fault = getattr(self, "check_" + word.strip("$"))(value, said, schema, at)
                if fault:
                    return fault
        return None

    def check_ref(self, value, said, schema, at):
        return self.fault_of(value, self.definitions[said.removeprefix("#/$defs/")], at)

    def check_type(self, value, said, schema, at):
        right = isinstance(value, TYPES[said]) and isinstance(value, bool) == (said == "boolean")
        return None if right else f"{at} is no {said}"

    def check_const(self, value, said, schema, at):
        return None if value == said else f"{at} isn't {said}"

    def check_enum(self, value, said, schema, at):
        return None if value in said else f"{at} is not one of {said}"

    def check_pattern(self, value, said, schema, at):
        return None if re.search(said, value) else f"{at} isn't {said}"

    def check_minimum(self, value, said, schema, at):
        return None if value >= said else f"{at} is less than {said}"

    def check_maximum(self, value, said, schema, at):
        return None if value <= said else f"{at} is more than {said}"

    def check_required(self, value, said, schema, at):
        return next((f"{at} has no {name}" for name in said if name not in value), None)

    def check_minProperties(self, value, said, schema, at):
        return None if len(value) >= said else f"{at} has fewer than {said} entries"

    def check_maxProperties(self, value, said, schema, at):
        return None if len(value) <= said else f"{at} has more than {said} entries"

    def check_minItems(self, value, said, schema, at):
        return None if len(value) >= said else f"{at} has fewer than {said} items"

    def check_maxItems(self, value, said, schema, at):
        return None if len(value) <= said else f"{at} has more than {said} items"

    def check_properties(self, value, said, schema, at):
        return next(filter(None, (self.fault_of(value[name], inner, f"{at}.{name}") for name, inner in said.items() if name in value)), None)

    def check_additionalProperties(self, value, said, schema, at):
        for name, entry in value.items():
            if name not in schema.get("properties", {}):
                fault = f"{at} has {name}" if said is False else self.fault_of(entry, said, f"{at}.{name}")
                if fault:
                    return fault
        return None

    def check_items(self, value, said, schema, at):
        return next(filter(None, (self.fault_of(item, said, f"{at}[{i}]") for i, item in enumerate(value))), None)

    def check_prefixItems(self, value, said, schema, at):
        return next(filter(None, (self.fault_of(item, inner, f"{at}[{i}]") for i, (item, inner) in enumerate(zip(value, said)))), None)

    def check_oneOf(self, value, said, schema, at):
        faults = [self.fault_of(value, inner, at) for inner in said]
        count = faults.count(None)
        return None if count == 1 else f"{at} is {count} of {len(said)}: {'; '.join(filter(None, faults))}"
