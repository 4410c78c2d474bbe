"""What `recorders/judge` is made of."""
