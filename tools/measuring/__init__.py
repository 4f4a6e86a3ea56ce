"""What the program and the tools cost, measured, and the page that says so: `tools/measure` runs it."""
