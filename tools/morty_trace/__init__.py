"""Reading, replaying and drawing the traces of `morty trace`."""
