"""The version of this project.

The package, ``constriction.pc`` and the archive's name take the version from this file. A test checks that the C header
and ``constriction_version()`` have the same version.
"""

VERSION = "0.5.0"
