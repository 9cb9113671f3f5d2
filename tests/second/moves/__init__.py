"""What a session may do next. A move is a function of the session: it says lines."""
