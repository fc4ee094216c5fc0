"""An executable account of document 01: see README.md."""
