"""What the scripts of the folder above do. Python 3.6 has to be able to read this file and each script, so
that they can say which version is needed.
"""
import sys

if sys.version_info < (3, 11):
    sys.exit("this needs Python 3.11 or later, and python3 is " + sys.version.split()[0])
