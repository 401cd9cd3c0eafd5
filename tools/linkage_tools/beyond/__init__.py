"""Linkage beyond one run: millions of records, exactly, as runs over parts that an engine (Dask) plans and the program decides."""
