"""A publication server: what `calmizsed serve` runs."""
