"""Networks in the General Modeling Network Specification."""
