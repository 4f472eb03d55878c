"""The commands of ``yuzuratchet``, a module each: its words, and what it does."""
