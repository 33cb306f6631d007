# Prints each line of --json that docs/inspect.schema.json does not allow. `$schemas` is an array with that schema.
# What is known of JSON Schema is what the schema uses.

def is_of($kind): type == $kind or ($kind == "integer" and type == "number" and floor == .);

def is_valid($schema; $definitions):
  . as $value
  | (if $schema["$ref"] then $definitions[$schema["$ref"] | ltrimstr("#/$defs/")] else $schema end) as $it
  | (($it | has("const") | not) or $it.const == $value)
    and ($it.enum == null or any($it.enum[]; . == $value))
    and ($it.type == null or any([$it.type] | flatten[]; . as $kind | $value | is_of($kind)))
    and ($it.pattern == null or test($it.pattern))
    and ($it.minimum == null or type != "number" or . >= $it.minimum)
    and (type != "object" or all($it.required // [] | .[]; . as $key | $value | has($key)))
    and (type != "object" or $it.properties == null
      or all(keys[]; . as $key | $it.properties[$key] != null and ($value[$key] | is_valid($it.properties[$key]; $definitions))))
    and (type != "array" or $it.items == null or all(.[]; is_valid($it.items; $definitions)))
    and ($it.oneOf == null or ([$it.oneOf[] as $one | select(is_valid($one; $definitions))] | length) == 1);

select(is_valid($schemas[0]; $schemas[0]["$defs"]) | not)
