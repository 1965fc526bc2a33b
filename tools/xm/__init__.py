"""Scripts as text, and sheets of what a script gave a partition."""
