"""A model of the messages in Python, for the scripts of tests/ and vectors/: the tables, an encoder, a judge, and a reader of JSON schemas.

It is written from the rules and the tables alone, and shares nothing with the crates.
"""
