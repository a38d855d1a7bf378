"""The whiteboard: one page that reads a sheet and a patch while people write."""
