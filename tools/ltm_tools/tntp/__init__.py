"""Networks in the format of the Transportation Networks collection (TNTP)."""
