"""Puts a broker or a client to the test: what `recorders/exercise` is made of."""
