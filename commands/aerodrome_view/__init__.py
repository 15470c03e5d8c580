"""What aerodrome-page and aerodrome-sarif are made of."""
