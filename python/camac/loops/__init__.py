"""What the loops of a script need so that the checker accepts it. Each idea is tried on the checker, which alone judges."""
