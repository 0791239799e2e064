"""What an operator does with the file service: its documents, its programs, and what is asked of it."""
