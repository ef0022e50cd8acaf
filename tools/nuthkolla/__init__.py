"""What the tools for people share: numbers, records, their text form, the desk program's lines."""
