"""What the sources look like: imports, lets, statements, line breaks, and the plan of the crates."""
