"""The version of the program and of these tools; CHANGELOG.md says what each one brought."""
VERSION = "0.2.0"
