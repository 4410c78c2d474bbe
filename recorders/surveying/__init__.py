"""What brokers and clients keep: what `recorders/survey` is made of."""
