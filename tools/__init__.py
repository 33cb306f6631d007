"""The tools that users run. The repository's own programs import `tools.waywire`."""
