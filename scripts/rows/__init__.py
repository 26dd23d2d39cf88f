"""What command_rows.py is made of: worked rows, the program under devices of all kinds, and what each kind of row runs."""
