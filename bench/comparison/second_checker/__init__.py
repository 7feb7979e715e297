"""A second checker of proof texts, written from the page of the formats alone."""
