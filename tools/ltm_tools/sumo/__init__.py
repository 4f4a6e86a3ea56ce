"""Networks of SUMO, with their vehicles and signals."""
