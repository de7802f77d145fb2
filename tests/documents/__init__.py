"""What the documents and the manual pages name and show, and whether that is so."""
