"""What tests/interface.py is made of: the sheet's tables, and what each is held against."""
