"""Many scenarios of a case, here and on a cluster."""
