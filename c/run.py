"""run.py COMMAND OPTION.. < bundle: prints and ends as the program does, by the package's
`ringplan.library`. For comparing the two.
"""

import sys

from ringplan import library

said = library.call_or_run(sys.argv[1], sys.stdin.buffer.read(), sys.argv[2:])
sys.stdout.buffer.write(said.text)
sys.stderr.buffer.write(said.errors.encode())
sys.exit(said.status)
