"""The queries: files and their properties, SAT solvers, and aigcheck, which checks each answer."""
