"""Viewers of scripts and reports: what `./ttm` starts to look at them."""
