"""A runner: goes through an approved plan by hooks, survives its own death, and has its history
judged.

`board` says what is remembered of a plan; `sqlite` remembers it in a file, and `etcd`, by
`gateway`, for runners on several machines; `hooks` runs executables; `runner` has the workers;
`bar` and `page` show how far they are; `__main__` is the command line.
"""
