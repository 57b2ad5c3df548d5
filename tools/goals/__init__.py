"""`svtv-goals`: the goals of a file, decided side by side by many calls of `svtv prove`. None of it is proved."""
