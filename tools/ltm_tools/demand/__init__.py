"""What people have of demand, made into rows of a case: matrices, profiles, trips, counted routes, turning counts, and
plans of signals."""
