"""What the scripts of this folder share. The client for Python is the one beside this package where it was installed,
or that of the repository."""

import os
import sys

sys.path.append(os.path.join(os.path.dirname(os.path.realpath(__file__)), "..", "..", "clients", "python"))
