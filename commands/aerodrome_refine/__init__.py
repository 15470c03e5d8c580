"""What aerodrome-refine is made of."""
