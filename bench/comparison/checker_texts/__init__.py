"""The texts and files on which checkers.py compares the program with second_checker."""
