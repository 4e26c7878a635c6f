"""How the scripts here end where they cannot do their work: a message, and status 2.

Python ends with 1 after an exception and after sys.exit with a text. That is the status of an answer
that differs, so that neither may be left to it.
"""

import os
import sys
import traceback


def fail(why):
    """Says why it could not be done, and ends with 2."""
    print(f"{os.path.basename(sys.argv[0])}: {why}", file=sys.stderr)
    sys.exit(2)


def run_main(main, *arguments):
    """Runs main, which ends as it says itself; whatever else goes wrong ends with 2 too."""
    try:
        main(*arguments)
        sys.stdout.flush()
    except OSError as error:
        fail(str(error))
    except Exception:
        traceback.print_exc()
        fail("this was not expected, and nothing is known of the rest")
