"""Pictures of a patch and its trees or readings, made of the boxes that scripts/reading gives."""
