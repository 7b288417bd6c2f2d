"""`ringplan-break`: a run in which a refused plan breaks a promise, and a plain machine that
confirms it.
"""
