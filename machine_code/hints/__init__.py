"""Not trusted: loop invariant inference. A wrong invariant is rejected."""
