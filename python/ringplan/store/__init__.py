"""A reference store: a Dynamo-style store over real database servers whose ring changes by a plan
that `ringplan` has checked, and whose history it judges.

It is an example to copy. `coordinator` has puts, gets, hints and handoffs; `executor` goes through
a plan; `nodes` is what it wants of a database server; `history` writes down what happened;
`traffic` has clients and kills servers; `broken` has stores that are wrong on purpose, for the
judge to refuse.
"""
