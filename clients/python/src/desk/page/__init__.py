"""The desk's page: an experiment in a browser. `python3 -m desk page` starts it."""
