"""One archive over the stores of several machines, by Dask's distributed."""
