"""A model of recorded X.25 interfaces whose recordings may have gaps."""
