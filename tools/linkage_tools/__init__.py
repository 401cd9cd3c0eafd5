"""Tools beside the program linkage: each module is one of them, but for words, tables, settings and job, which they share."""
