"""The language of gams25 a second time, in plain Python: what the documents say, and nothing for
speed.
"""
